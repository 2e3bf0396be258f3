# Lines that ask for nothing, and what changes nothing of a store.
one> get
one= refused: no such line
one> put a
one= refused: no such line
one> put #0 a
one= refused: no such line
one> put a  b
one= refused: no such line
one> open
one= refused: no such line
one> create people.exh 2 0 none
one= refused: no such line
one> create people.exh 256 0 sha
one= refused: no such line
one> commit
one= refused: no store is open
one> drop
one= refused: no store is open
one> other len
one= refused: no store is open
! files
