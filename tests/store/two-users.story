# Two users whose group has the file, each of whom opens and commits; a file that only one of them may read is refused to
# the other one.
! user ann 65532
! user bob 65533
ann> create people.exh 2 0 plain
ann= done
ann> put ann red
ann= new
ann> commit
ann= done
bob> open people.exh 0
bob= refused: another process is at work on it: try again, or wait longer
ann> close
ann= done
bob> open people.exh 0
bob= done
bob> put bob blue
bob= new
bob> close
bob= done
ann> direct people.exh put ann green
ann= was red
bob> direct people.exh get ann
bob= is green
! pairs people.exh
= ann green
= bob blue
! mode people.exh 600
bob> open people.exh
bob= refused: Permission denied (os error 13) (refused 41)
bob> direct people.exh get ann
bob= refused: Permission denied (os error 13) (refused 41)
bob> open-read people.exh
bob= refused: Permission denied (os error 13) (refused 41)
ann> open people.exh 0
ann= done
ann> close
ann= done
# A file that may only be read is, and isn't changed.
! mode people.exh 644
! copy people.exh kept.exh
bob> open-read people.exh
bob= done
bob> pairs
bob= pairs ann green bob blue
bob> direct people.exh get bob
bob= is blue
bob> direct people.exh put bob grey
bob= refused: Permission denied (os error 13) (refused 41)
! same people.exh kept.exh
