signatures 3;

// Written by giopdump_signatures from arrays.idl.
// whole: 9 operations, 1 exception, 7 types; by half: 0 operations; left out: 0 operations, 0 exceptions.

// Every object
operation boolean _is_a(in string logical_type_id);
operation boolean _non_existent();

// A::Board (arrays.idl:14)
exception Off "IDL:A/Off:1.0" { long by[2][3]; };
struct long_x3 { long v[3]; };
operation long_x3 pick(in ulong n);
struct long_x2_x3 { long v[2][3]; };
operation long_x2_x3 all(in long one[3], inout long two[2][3]);
operation sequence<long_x3, 7> flat(in sequence<long_x2_x3> many);
struct Point "IDL:A/Point:1.0" { long x; long y; long ring[3]; };
struct Square "IDL:A/Square:1.0" { short at[2][3]; Point corners[4]; octet raw[5]; octet sum[16]; };
union Either "IDL:A/Either:1.0" switch (boolean) { case true: long one[3]; case false: long two[2][3]; };
operation void cube(in Square s, out Either e, in string n[2]);
struct octet_x16 { octet v[16]; };
operation octet_x16 _get_check();
struct string_x2 { string v[2]; };
operation string_x2 _get_both();
operation void _set_both(in string value[2]);
