# Files that are damaged: which block it is and what is wrong there, and none of them is changed.
one> open page.exh
one= refused: block 2 is damaged (refused 34 at 2)
one> open-read page.exh
one= refused: block 2 is damaged (refused 34 at 2)
one> direct page.exh get #00
one= refused: block 2 is damaged (refused 34 at 2)
one> direct page.exh put #00 c
one= refused: block 2 is damaged (refused 34 at 2)
# What a call doesn't need isn't read.
one> direct page.exh get #80
one= is b
one> open digest.exh
one= refused: block 3 is damaged (refused 34 at 3)
one> open header.exh
one= refused: block 0 is damaged (refused 34 at 0)
one> direct header.exh get #00
one= refused: block 0 is damaged (refused 34 at 0)
one> direct header.exh put #00 c
one= refused: block 0 is damaged (refused 34 at 0)
one> open cut.exh
one= refused: it ends too early (refused 38)
one> direct cut.exh get #80
one= refused: it ends too early (refused 38)
one> open short.exh
one= refused: it ends too early (refused 38)
one> direct short.exh get #80
one= refused: it ends too early (refused 38)
one> direct short.exh put #80 c
one= refused: it ends amid a block
one> open more.exh
one= refused: it goes on behind its last block (refused 39)
one> direct more.exh put #80 c
one= refused: it ends amid a block
one> open magic.exh
one= refused: it is no page file (refused 36)
one> direct magic.exh get #80
one= refused: it is no page file (refused 36)
one> direct magic.exh put #80 c
one= refused: it is no page file (refused 36)
one> open-or-create magic.exh 2 0 plain
one= refused: it is no page file (refused 36)
one> open version.exh
one= refused: it is a page file of a version that isn't known: a newer program may know it (refused 37)
one> direct version.exh get #80
one= refused: it is a page file of a version that isn't known: a newer program may know it (refused 37)
one> direct version.exh put #80 c
one= refused: it is a page file of a version that isn't known: a newer program may know it (refused 37)
one> open padding.exh
one= refused: block 2 is damaged (refused 33 at 2)
one> open order.exh
one= refused: block 2 is damaged (refused 32 at 2)
one> open illegal.exh
one= refused: its pages and its table don't fit together (refused 40 reason 4)
one> get #00
one= refused: no store is open
one> create magic.exh 2 0 plain
one= refused: something is there already, and stays
! turn page.exh 8212
one> open page.exh
one= done
one> pairs
one= pairs #00 a @ x #80 b
