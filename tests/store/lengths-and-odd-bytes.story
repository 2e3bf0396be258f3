# Keys of 1 to 64 bytes and values of 0 to 128, of whatever bytes; others are refused with their length, and change nothing.
one> create people.exh 2 1 sha
one= done
one> get #
one= refused: a key has at least one byte (refused 12)
one> put # v
one= refused: a key has at least one byte (refused 12)
one> remove #
one= refused: a key has at least one byte (refused 12)
one> swap # a b
one= refused: a key has at least one byte (refused 12)
one> put-new # v
one= refused: a key has at least one byte (refused 12)
one> replace # v
one= refused: a key has at least one byte (refused 12)
one> get kkkkkkkkkkkkkkkkkkkkkkkkkkkkkkkkkkkkkkkkkkkkkkkkkkkkkkkkkkkkkkkkk
one= refused: a key has at most 64 bytes, and this one has 65 (refused 12)
one> put kkkkkkkkkkkkkkkkkkkkkkkkkkkkkkkkkkkkkkkkkkkkkkkkkkkkkkkkkkkkkkkkk v
one= refused: a key has at most 64 bytes, and this one has 65 (refused 12)
one> put k vvvvvvvvvvvvvvvvvvvvvvvvvvvvvvvvvvvvvvvvvvvvvvvvvvvvvvvvvvvvvvvvvvvvvvvvvvvvvvvvvvvvvvvvvvvvvvvvvvvvvvvvvvvvvvvvvvvvvvvvvvvvvvvvv
one= refused: a value has at most 128 bytes, and this one has 129 (refused 12)
one> put-new k vvvvvvvvvvvvvvvvvvvvvvvvvvvvvvvvvvvvvvvvvvvvvvvvvvvvvvvvvvvvvvvvvvvvvvvvvvvvvvvvvvvvvvvvvvvvvvvvvvvvvvvvvvvvvvvvvvvvvvvvvvvvvvvvv
one= refused: a value has at most 128 bytes, and this one has 129 (refused 12)
one> replace k vvvvvvvvvvvvvvvvvvvvvvvvvvvvvvvvvvvvvvvvvvvvvvvvvvvvvvvvvvvvvvvvvvvvvvvvvvvvvvvvvvvvvvvvvvvvvvvvvvvvvvvvvvvvvvvvvvvvvvvvvvvvvvvvv
one= refused: a value has at most 128 bytes, and this one has 129 (refused 12)
one> swap k vvvvvvvvvvvvvvvvvvvvvvvvvvvvvvvvvvvvvvvvvvvvvvvvvvvvvvvvvvvvvvvvvvvvvvvvvvvvvvvvvvvvvvvvvvvvvvvvvvvvvvvvvvvvvvvvvvvvvvvvvvvvvvvvv v
one= refused: a value has at most 128 bytes, and this one has 129 (refused 12)
one> swap k v vvvvvvvvvvvvvvvvvvvvvvvvvvvvvvvvvvvvvvvvvvvvvvvvvvvvvvvvvvvvvvvvvvvvvvvvvvvvvvvvvvvvvvvvvvvvvvvvvvvvvvvvvvvvvvvvvvvvvvvvvvvvvvvvv
one= refused: a value has at most 128 bytes, and this one has 129 (refused 12)
one> len
one= len 0
one> put kkkkkkkkkkkkkkkkkkkkkkkkkkkkkkkkkkkkkkkkkkkkkkkkkkkkkkkkkkkkkkkk vvvvvvvvvvvvvvvvvvvvvvvvvvvvvvvvvvvvvvvvvvvvvvvvvvvvvvvvvvvvvvvvvvvvvvvvvvvvvvvvvvvvvvvvvvvvvvvvvvvvvvvvvvvvvvvvvvvvvvvvvvvvvvvv
one= new
one> put #00000000000000000000000000000000000000000000000000000000000000000000000000000000000000000000000000000000000000000000000000000000 #ffffffffffffffffffffffffffffffffffffffffffffffffffffffffffffffffffffffffffffffffffffffffffffffffffffffffffffffffffffffffffffffffffffffffffffffffffffffffffffffffffffffffffffffffffffffffffffffffffffffffffffffffffffffffffffffffffffffffffffffffffffffffffffffff
one= new
one> put #00 #
one= new
one> put #0000 #00
one= new
one> put #0a #0a
one= new
one> put #20 #20
one= new
one> put #ff #c328
one= new
one> put #23 #23
one= new
one> swap #0a #0a #0d0a
one= swapped
one> close
one= done
two> open people.exh
two= done
two> len
two= len 8
two> get kkkkkkkkkkkkkkkkkkkkkkkkkkkkkkkkkkkkkkkkkkkkkkkkkkkkkkkkkkkkkkkk
two= is vvvvvvvvvvvvvvvvvvvvvvvvvvvvvvvvvvvvvvvvvvvvvvvvvvvvvvvvvvvvvvvvvvvvvvvvvvvvvvvvvvvvvvvvvvvvvvvvvvvvvvvvvvvvvvvvvvvvvvvvvvvvvvvv
two> get #00000000000000000000000000000000000000000000000000000000000000000000000000000000000000000000000000000000000000000000000000000000
two= is #ffffffffffffffffffffffffffffffffffffffffffffffffffffffffffffffffffffffffffffffffffffffffffffffffffffffffffffffffffffffffffffffffffffffffffffffffffffffffffffffffffffffffffffffffffffffffffffffffffffffffffffffffffffffffffffffffffffffffffffffffffffffffffffffff
two> get #00
two= is #
two> get #0000
two= is #00
two> get #0a
two= is #0d0a
two> get #20
two= is #20
two> get #ff
two= is #c328
two> get #23
two= is #23
two> direct people.exh get #
two= refused: a key has at least one byte (refused 12)
two> direct people.exh get #0000000000000000000000000000000000000000000000000000000000000000000000000000000000000000000000000000000000000000000000000000000000
two= refused: a key has at most 64 bytes, and this one has 65 (refused 12)
two> direct people.exh put k vvvvvvvvvvvvvvvvvvvvvvvvvvvvvvvvvvvvvvvvvvvvvvvvvvvvvvvvvvvvvvvvvvvvvvvvvvvvvvvvvvvvvvvvvvvvvvvvvvvvvvvvvvvvvvvvvvvvvvvvvvvvvvvvv
two= refused: a value has at most 128 bytes, and this one has 129 (refused 12)
two> direct people.exh get kkkkkkkkkkkkkkkkkkkkkkkkkkkkkkkkkkkkkkkkkkkkkkkkkkkkkkkkkkkkkkkk
two= is vvvvvvvvvvvvvvvvvvvvvvvvvvvvvvvvvvvvvvvvvvvvvvvvvvvvvvvvvvvvvvvvvvvvvvvvvvvvvvvvvvvvvvvvvvvvvvvvvvvvvvvvvvvvvvvvvvvvvvvvvvvvvvvv
two> direct people.exh get #ff
two= is #c328
