# A store that is read has one state of the file, whatever another process does then, and commits nothing.
one> open-read three.exh
one= done
two> open three.exh 0
two= done
two> remove #00
two= was a
two> close
two= done
one> get #00
one= is a
one> len
one= len 3
one> commit
one= refused: the store was opened to be read
one> put #00 b
one= was a
one> commit
one= refused: the store was opened to be read
one> close
one= refused: the store was opened to be read
two> direct three.exh get #00
two= none
! pairs three.exh
= @ x
= #80 b
# Beside a store that has changes of its own a reader has what was committed, at once.
two> open three.exh 0
two= done
two> put @ y
two= was x
one> open-read three.exh 0
one= done
! took one 0 3
one> pairs
one= pairs @ x #80 b
two> commit
two= done
one> get @
one= is x
one> open-read three.exh
one= done
one> get @
one= is y
