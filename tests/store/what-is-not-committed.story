# A store that is let go without a commit leaves the file as it was, to the byte; so does one whose process ends or is
# killed.
one> open-or-create people.exh 2 0 plain
one= done
one> put ann red
one= new
one> commit
one= done
! copy people.exh before.exh
one> put ann blue
one= was red
one> put bob grey
one= new
one> drop
one= done
! same people.exh before.exh
one> open people.exh
one= done
one> get ann
one= is red
one> remove ann
one= was red
! end one
! same people.exh before.exh
two> open people.exh
two= done
two> swap ann red gold
two= swapped
! kill two
! same people.exh before.exh
! files
= before.exh
= people.exh
three> open people.exh 0
three= done
three> pairs
three= pairs ann red
# A commit and a close where nothing was changed write nothing.
three> get ann
three= is red
three> put-new ann pink
three= is red
three> commit
three= done
three> close
three= done
! pairs people.exh
= ann red
