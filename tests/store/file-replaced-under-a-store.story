# A file that is moved, removed or replaced under a store, or written in place by who asks for no lock: a commit is refused,
# writes nothing, and leaves the store its pairs. Once the file is back, it is done.
one> open three.exh
one= done
one> put @ y
one= was x
! move three.exh moved.exh
one> commit
one= refused: the file is no longer at its path, and nothing was saved
one> get @
one= is y
! files
= moved.exh
= other.exh
! copy other.exh three.exh
one> commit
one= refused: the file is no longer at its path, and nothing was saved
! same other.exh three.exh
! remove three.exh
! move moved.exh three.exh
! pairs three.exh
= #00 a
= @ x
= #80 b
one> commit
one= done
! pairs three.exh
= #00 a
= @ y
= #80 b
one> put @ z
one= was y
! remove three.exh
one> commit
one= refused: the file is no longer at its path, and nothing was saved
one> close
one= refused: the file is no longer at its path, and nothing was saved
! files
= other.exh
# Other bytes in the same file, of another stamp.
! copy other.exh three.exh
one> open three.exh
one= done
one> put @ y
one= was x
! copy three.exh before.exh
! turn three.exh 84
one> commit
one= refused: block 0 is damaged (refused 34 at 0)
! turn three.exh 84
! same three.exh before.exh
one> drop
one= done
