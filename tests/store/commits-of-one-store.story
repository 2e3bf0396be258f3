# Several commits of one store: each finds the file as the one before left it. Of one put or removal in the file, of many by
# comparing all pages, and of one again; meanwhile nobody else has the file.
one> create people.exh 4 2 sha
one= done
repeat 100
one> put a{n} v{n}
one= new
end
one> commit
one= done
! count people.exh
= 100
one> put b v
one= new
one> commit
one= done
! count people.exh
= 101
two> direct people.exh within 0 put c v
two= refused: another process is at work on it: try again, or wait longer
one> remove a7
one= was v7
one> replace a8 w8
one= was v8
one> swap a9 v9 w9
one= swapped
one> put-new d v
one= new
one> commit
one= done
! count people.exh
= 101
repeat 100
one> put e{n} v{n}
one= new
end
one> commit
one= done
! count people.exh
= 201
repeat 60
one> remove e{n}
one= was v{n}
end
one> commit
one= done
! count people.exh
= 141
one> put b w
one= was v
one> commit
one= done
one> commit
one= done
one> drop
one= done
two> direct people.exh get b
two= is w
two> direct people.exh get a8
two= is w8
two> direct people.exh get a9
two= is w9
two> direct people.exh get d
two= is v
two> direct people.exh get a7
two= none
two> direct people.exh get e60
two= none
two> direct people.exh get e61
two= is v61
