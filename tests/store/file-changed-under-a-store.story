# Another state of the file is written over it by who asks for no lock: a commit is refused, and lets it be.
one> open three.exh
one= done
one> put @ y
one= was x
! copy other.exh three.exh
one> commit
one= refused: it was changed by others meanwhile: try again
! same other.exh three.exh
one> get @
one= is y
one> close
one= refused: it was changed by others meanwhile: try again
! same other.exh three.exh
! files
= other.exh
= three.exh
two> open three.exh 0
two= done
two> pairs
two= pairs #00 a @ x #80 b
