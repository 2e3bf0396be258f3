# Puts of each kind, swaps and removals on a new store; what they leave is there behind a commit, behind an opening and
# behind a close, and a second reader of the file finds it.
one> create people.exh 16 0 sha
one= done
one> settings
one= settings 16 0 sha
one> len
one= len 0
one> pairs
one= pairs
one> get ann
one= none
one> put ann red
one= new
one> put ann blue
one= was red
one> put-new bob grey
one= new
one> put-new ann pink
one= is blue
one> replace ann red
one= was blue
one> replace cid red
one= none
one> swap ann blue gold
one= differs red
one> swap ann red gold
one= swapped
one> swap cid red gold
one= none
one> put dan #
one= new
one> remove bob
one= was grey
one> remove bob
one= none
one> commit
one= done
one> len
one= len 2
one> get ann
one= is gold
one> get bob
one= none
one> get dan
one= is #
one> drop
one= done
! files
= people.exh
! count people.exh
= 2
one> open-or-create people.exh 2 1 plain
one= done
one> settings
one= settings 16 0 sha
one> len
one= len 2
one> get ann
one= is gold
one> get dan
one= is #
one> put bob green
one= new
one> close
one= done
one> get bob
one= refused: no store is open
one> close
one= refused: no store is open
two> open people.exh
two= done
two> get bob
two= is green
two> len
two= len 3
