# A store of the file to which a link leads; when the link leads to another file, a commit is refused, and lets both be.
! link link.exh three.exh
! copy three.exh kept.exh
one> open link.exh
one= done
one> put @ y
one= was x
! remove link.exh
! link link.exh other.exh
one> commit
one= refused: the file is no longer at its path, and nothing was saved
! same three.exh kept.exh
! remove link.exh
! link link.exh three.exh
one> commit
one= done
! pairs three.exh
= #00 a
= @ y
= #80 b
! pairs other.exh
= #00 a
= @ x
= #80 b
