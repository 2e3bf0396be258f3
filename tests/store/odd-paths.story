# What else a path may lead to: nothing, an empty file, a folder, a pipe, a link, a name too long, a file of a second name.
! folder folder
! pipe pipe
! bytes empty.exh
! link link.exh people.exh
! link lost.exh nowhere/people.exh
! link round.exh round.exh
one> open folder
one= refused: not a regular file (refused 41)
one> direct folder get k
one= refused: not a regular file (refused 41)
one> open-read folder
one= refused: not a regular file (refused 41)
one> create folder 2 0 plain
one= refused: something is there already, and stays
one> open pipe 0
one= refused: not a regular file (refused 41)
one> direct pipe put k v
one= refused: not a regular file (refused 41)
one> create pipe 2 0 plain
one= refused: something is there already, and stays
one> open empty.exh
one= refused: no page file is there: `exhash create` makes one (refused 41)
one> direct empty.exh get k
one= refused: no page file is there: `exhash create` makes one (refused 41)
one> open empty.exh/people.exh
one= refused: Not a directory (os error 20) (refused 41)
one> create lost.exh 2 0 plain
one= refused: something is there already, and stays
# A link to nothing isn't followed to make a file, and one to a file leads there.
one> open link.exh
one= refused: no page file is there: `exhash create` makes one (refused 41)
one> create people.exh 2 0 plain
one= done
one> put k v
one= new
one> close
one= done
one> open link.exh
one= done
one> put l w
one= new
one> commit
one= done
two> open people.exh 0
two= refused: another process is at work on it: try again, or wait longer
one> drop
one= done
! pairs people.exh
= k v
= l w
two> open folder/../people.exh
two= done
two> put m x
two= new
two> close
two= done
# An empty file is a place for a new one.
one> create empty.exh 2 0 plain
one= done
one> put k v
one= new
one> close
one= done
! pairs empty.exh
= k v
# The longest name that leaves room for the log's, and longer ones.
one> create nnnnnnnnnnnnnnnnnnnnnnnnnnnnnnnnnnnnnnnnnnnnnnnnnnnnnnnnnnnnnnnnnnnnnnnnnnnnnnnnnnnnnnnnnnnnnnnnnnnnnnnnnnnnnnnnnnnnnnnnnnnnnnnnnnnnnnnnnnnnnnnnnnnnnnnnnnnnnnnnnnnnnnnnnnnnnnnnnnnnnnnnnnnnnnnnnnnnnnnnnnnnnnnnnnnnnnnnnnnnnnnnnnnnnnnnnnnnnnnnnnnnnnn 2 0 plain
one= done
one> put k v
one= new
one> close
one= done
! pairs nnnnnnnnnnnnnnnnnnnnnnnnnnnnnnnnnnnnnnnnnnnnnnnnnnnnnnnnnnnnnnnnnnnnnnnnnnnnnnnnnnnnnnnnnnnnnnnnnnnnnnnnnnnnnnnnnnnnnnnnnnnnnnnnnnnnnnnnnnnnnnnnnnnnnnnnnnnnnnnnnnnnnnnnnnnnnnnnnnnnnnnnnnnnnnnnnnnnnnnnnnnnnnnnnnnnnnnnnnnnnnnnnnnnnnnnnnnnnnnnnnnnnnn
= k v
one> create nnnnnnnnnnnnnnnnnnnnnnnnnnnnnnnnnnnnnnnnnnnnnnnnnnnnnnnnnnnnnnnnnnnnnnnnnnnnnnnnnnnnnnnnnnnnnnnnnnnnnnnnnnnnnnnnnnnnnnnnnnnnnnnnnnnnnnnnnnnnnnnnnnnnnnnnnnnnnnnnnnnnnnnnnnnnnnnnnnnnnnnnnnnnnnnnnnnnnnnnnnnnnnnnnnnnnnnnnnnnnnnnnnnnnnnnnnnnnnnnnnnnnnnnnnnnnnnn 2 0 plain
one= refused: its name leaves no room for that of its log
one> create nnnnnnnnnnnnnnnnnnnnnnnnnnnnnnnnnnnnnnnnnnnnnnnnnnnnnnnnnnnnnnnnnnnnnnnnnnnnnnnnnnnnnnnnnnnnnnnnnnnnnnnnnnnnnnnnnnnnnnnnnnnnnnnnnnnnnnnnnnnnnnnnnnnnnnnnnnnnnnnnnnnnnnnnnnnnnnnnnnnnnnnnnnnnnnnnnnnnnnnnnnnnnnnnnnnnnnnnnnnnnnnnnnnnnnnnnnnnnnnnnnnnnnnn 2 0 plain
one= refused: its name leaves no room for that of its log
