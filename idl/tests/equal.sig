signatures 3;

// Written by giopdump_signatures from equal.idl.
// whole: 16 operations, 0 exceptions, 2 types; by half: 0 operations; left out: 1 operation, 0 exceptions.

// Every object
operation boolean _is_a(in string logical_type_id);
operation boolean _non_existent();

// E::First (equal.idl:5)
operation void same(in long a);
// what follows in the request: rest (unequal parameters: E::Second::unequal (equal.idl:15))
operation void unequal(in long a);
operation void unequal(in long a) of "IDL:E/First:1.0", "IDL:E/Third:1.0";
// declared without an interface: rest (unequal parameters: E::Second::declared (equal.idl:16))
struct One "IDL:E/One:1.0" { long n; };
operation void declared(in One o) of "IDL:E/First:1.0";
// what follows in the reply: rest (unequal parameters: E::Second::direction (equal.idl:17))
operation void direction(in long a);
operation void direction(in long a) of "IDL:E/First:1.0";
// poisoned without an interface: rest (unequal parameters: E::Second::poisoned (equal.idl:18))
operation void poisoned(in long a) of "IDL:E/First:1.0";
operation long _get_size();

// E::Second (equal.idl:13)
// same (equal.idl:14) travels like E::First::same (equal.idl:6)
operation void unequal(in long a, in long b) of "IDL:E/Second:1.0";
struct Other "IDL:E/Other:1.0" { long n; };
operation void declared(in Other o) of "IDL:E/Second:1.0";
operation void direction(inout long a) of "IDL:E/Second:1.0";
// left out: E::Second::poisoned (equal.idl:18): parameter a: long double
// _get_size (equal.idl:19) travels like E::First::_get_size (equal.idl:11)
operation void _set_size(in long value);

// E::Third (equal.idl:21)
// same (equal.idl:21) travels like E::First::same (equal.idl:6)
// unequal (equal.idl:21) travels like E::First::unequal (equal.idl:7)

// Keys of objects, as giop-keys finds them in a dump
// key "" of "IDL:E/First:1.0";
// key "" of "IDL:E/Third:1.0";
// key "" of "IDL:E/Second:1.0";
