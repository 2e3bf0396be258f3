# Calls that change nothing, and those that are refused: a commit behind them writes nothing, so the file stays as it is to
# the byte, its stamps too.
one> open three.exh
one= done
! copy three.exh before.exh
one> get #00
one= is a
one> put-new #00 c
one= is a
one> replace #20 c
one= none
one> remove #20
one= none
one> swap #00 c d
one= differs a
one> swap #20 c d
one= none
one> put # c
one= refused: a key has at least one byte (refused 12)
one> len
one= len 3
one> pairs
one= pairs #00 a @ x #80 b
one> commit
one= done
! same three.exh before.exh
one> direct three.exh within 0 get #00
one= is a
one> close
one= done
! same three.exh before.exh
one> direct three.exh put-new #00 c
one= is a
one> direct three.exh replace #20 c
one= none
one> direct three.exh remove #20
one= none
one> direct three.exh swap #00 c d
one= differs a
! same three.exh before.exh
! files
= before.exh
= three.exh
