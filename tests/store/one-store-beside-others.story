# The calls that change a file directly, and the program, are refused beside a store, and done when it is gone.
one> create people.exh 2 0 plain
one= done
one> put ann red
one= new
one> commit
one= done
two> direct people.exh get ann
two= is red
two> direct people.exh put ann blue
two= refused: another process is at work on it: try again, or wait longer
! took two 4.5 30
two> direct people.exh within 0 remove ann
two= refused: another process is at work on it: try again, or wait longer
! took two 0 3
two> direct people.exh within 1 put-new bob blue
two= refused: another process is at work on it: try again, or wait longer
! took two 0.9 4.5
two> direct people.exh within 0 replace ann blue
two= refused: another process is at work on it: try again, or wait longer
two> direct people.exh within 0 swap ann red blue
two= refused: another process is at work on it: try again, or wait longer
two> direct people.exh within 60 put ann red
! waits two
one> put ann pink
one= was red
one> commit
one= done
! pairs people.exh
= ann pink
one> drop
one= done
two= was pink
two> direct people.exh put ann blue
two= was red
! exhash put people.exh bob grey
= new
one> open people.exh
one= done
one> pairs
one= pairs ann blue bob grey
