# A file of two names is read, and not changed, as long as it has both.
! second-name second.exh three.exh
! copy three.exh kept.exh
one> open-read second.exh
one= done
one> pairs
one= pairs #00 a @ x #80 b
one> direct second.exh get @
one= is x
one> direct second.exh put @ y
one= refused: it has a second name (a hard link)
one> open three.exh
one= done
one> put @ y
one= was x
one> commit
one= refused: it has a second name (a hard link)
! same three.exh kept.exh
! remove second.exh
one> commit
one= done
! pairs three.exh
= #00 a
= @ y
= #80 b
