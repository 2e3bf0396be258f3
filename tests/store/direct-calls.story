# Calls that go directly to a file: each is a commit. A file of version 2 is read by them, and not changed.
one> direct people.exh put ann red
one= refused: no page file is there: `exhash create` makes one (refused 41)
one> direct people.exh get ann
one= refused: no page file is there: `exhash create` makes one (refused 41)
! files
= old.exh
one> create people.exh 16 0 sha
one= done
one> drop
one= done
one> direct people.exh get ann
one= none
one> direct people.exh put ann red
one= new
! pairs people.exh
= ann red
one> direct people.exh put ann blue
one= was red
one> direct people.exh swap ann red gold
one= differs blue
one> direct people.exh swap ann blue gold
one= swapped
one> direct people.exh swap bob blue gold
one= none
one> direct people.exh get ann
one= is gold
one> direct people.exh remove ann
one= was gold
one> direct people.exh remove ann
one= none
one> direct people.exh get ann
one= none
one> direct people.exh replace ann red
one= none
one> direct people.exh put-new ann red
one= new
one> direct people.exh put-new ann blue
one= is red
one> direct people.exh replace ann blue
one= was red
! pairs people.exh
= ann blue
one> direct people.exh remove ann
one= was blue
one> direct people.exh put #00ff0a #
one= new
one> direct people.exh get #00ff0a
one= is #
! pairs people.exh
= #00ff0a #
! copy old.exh before.exh
one> direct old.exh get #80
one= is b
one> direct old.exh remove #80
one= refused: it is a page file of a version that isn't changed in place: open it as a store
one> direct old.exh put #80 c
one= refused: it is a page file of a version that isn't changed in place: open it as a store
one> direct old.exh put-new #81 c
one= refused: it is a page file of a version that isn't changed in place: open it as a store
one> direct old.exh replace #80 c
one= refused: it is a page file of a version that isn't changed in place: open it as a store
! same old.exh before.exh
! files
= before.exh
= old.exh
= people.exh
