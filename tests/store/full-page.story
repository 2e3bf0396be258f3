# Three keys whose hashes share twenty bits, where a page holds two: the third isn't put, and the others are as before.
one> create people.exh 2 0 plain
one= done
one> put #00000100 a
one= new
one> put #00000200 b
one= new
one> put #00000300 c
one= full
one> put-new #00000300 c
one= full
one> put #00000200 d
one= was b
one> put #80 e
one= new
one> commit
one= done
one> put #00000300 c
one= full
one> remove #00000100
one= was a
one> put-new #00000300 c
one= new
one> close
one= done
! pairs people.exh
= #00000200 d
= #00000300 c
= #80 e
two> direct people.exh put #00000100 a
two= full
! pairs people.exh
= #00000200 d
= #00000300 c
= #80 e
