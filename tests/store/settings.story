# The settings of a new file: each range, and what is beyond it makes no file.
one> create people.exh 0 0 sha
one= refused: a page holds 1 to 16 records, and a file has at most 2^4 parts (refused 61)
one> create people.exh 17 0 sha
one= refused: a page holds 1 to 16 records, and a file has at most 2^4 parts (refused 61)
one> create people.exh 16 5 sha
one= refused: a page holds 1 to 16 records, and a file has at most 2^4 parts (refused 61)
one> open-or-create people.exh 0 0 plain
one= refused: a page holds 1 to 16 records, and a file has at most 2^4 parts (refused 61)
! files
one> create least.exh 1 0 plain
one= done
one> settings
one= settings 1 0 plain
one> drop
one= done
one> create most.exh 16 4 sha
one= done
one> settings
one= settings 16 4 sha
one> put k v
one= new
one> close
one= done
! pairs most.exh
= k v
! pairs least.exh
