# The three pairs of a file of version 2, in the order of its pages, changed in two commits and opened again. Behind each
# commit the second reader finds what was committed.
one> open three.exh
one= done
one> settings
one= settings 2 0 plain
one> len
one= len 3
one> pairs
one= pairs #00 a @ x #80 b
one> put #c0 y
one= new
one> commit
one= done
! pairs three.exh
= #00 a
= @ x
= #80 b
= #c0 y
one> put #20 z
one= new
! pairs three.exh
= #00 a
= @ x
= #80 b
= #c0 y
one> commit
one= done
one> drop
one= done
! pairs three.exh
= #00 a
= #20 z
= @ x
= #80 b
= #c0 y
! files
= three.exh
one> open three.exh
one= done
one> len
one= len 5
one> get #c0
one= is y
one> get #20
one= is z
one> remove #00
one= was a
one> remove #20
one= was z
one> remove @
one= was x
one> remove #80
one= was b
one> remove #c0
one= was y
one> close
one= done
! pairs three.exh
one> open three.exh
one= done
one> pairs
one= pairs
