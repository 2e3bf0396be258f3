# A second store of one file is refused in the same process and in another, at once or when its seconds are over, and waits
# until the first is let go.
one> open people.exh
one= refused: no page file is there: `exhash create` makes one (refused 41)
one> open-read people.exh
one= refused: no page file is there: `exhash create` makes one (refused 41)
one> create people.exh 2 0 plain
one= done
one> other open people.exh 0
one= refused: another process is at work on it: try again, or wait longer
one> other create people.exh 2 0 plain
one= refused: something is there already, and stays
two> open people.exh 0
two= refused: another process is at work on it: try again, or wait longer
! took two 0 3
two> open people.exh 1
two= refused: another process is at work on it: try again, or wait longer
! took two 0.9 4.5
two> open-or-create people.exh 2 0 plain
! waits two
one> put ann red
one= new
one> close
one= done
two= done
two> get ann
two= is red
one> open people.exh 0
one= refused: another process is at work on it: try again, or wait longer
one> open people.exh 60
! waits one
! kill two
one= done
one> get ann
one= is red
# What is usual are five seconds.
two> open people.exh
two= refused: another process is at work on it: try again, or wait longer
! took two 4.5 30
