signatures 3;

// Written by giopdump_signatures from bounds.idl.
// whole: 3 operations, 0 exceptions, 0 types; by half: 0 operations; left out: 0 operations, 0 exceptions.

// Every object
operation boolean _is_a(in string logical_type_id);
operation boolean _non_existent();

// B::Bounded (bounds.idl:10)
operation sequence<string<16>, 4> cut(
  in string<1> letter,
  in sequence<sequence<sequence<double>, 2>, 4294967295> down,
  in sequence<octet, 64> lock,
  out string<16> tail
);
