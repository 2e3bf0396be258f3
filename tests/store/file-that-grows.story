# A file of four wards, three hundred pairs in commits of a hundred, which split its pages; then all but one are taken out.
one> create people.exh 4 2 sha
one= done
repeat 100
one> put a{n} v{n}
one= new
end
one> commit
one= done
! count people.exh
= 100
repeat 100
one> put b{n} v{n}
one= new
end
one> commit
one= done
! count people.exh
= 200
repeat 100
one> put c{n} v{n}
one= new
end
one> commit
one= done
one> drop
one= done
! count people.exh
= 300
one> open-read people.exh
one= done
one> len
one= len 300
one> get b63
one= is v63
repeat 100
one> get c{n}
one= is v{n}
end
two> open people.exh
two= done
repeat 100
two> remove a{n}
two= was v{n}
two> remove b{n}
two= was v{n}
end
repeat 100
two> put c{n} w{n}
two= was v{n}
end
two> commit
two= done
! count people.exh
= 100
repeat 99
two> remove c{n}
two= was w{n}
end
two> close
two= done
! pairs people.exh
= c100 w100
one> open-read people.exh
one= done
one> pairs
one= pairs c100 w100
