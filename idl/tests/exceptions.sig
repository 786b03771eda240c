signatures 3;

// Written by giopdump_signatures from exceptions.idl.
// whole: 3 operations, 6 exceptions, 0 types; by half: 0 operations; left out: 0 operations, 0 exceptions.

// Every object
operation boolean _is_a(in string logical_type_id);
operation boolean _non_existent();

// Bank::Account (exceptions.idl:9)
exception Frozen "IDL:acme.example/Bank/Account/Frozen:1.0" { boolean forever; };
exception TooLittle "IDL:acme.example/Bank/TooLittle:1.0" { ulong missing; };
exception Shut "IDL:elsewhere/Closed:2.7" { };
operation void draw(in ulong sum);

// Exceptions that no interface above declares or raises
exception Old "IDL:acme.example/Bank/Old:3.1" { string<8> since; };
exception Unused "IDL:acme.example/Bank/Unused:1.0" { octet a; octet b; };
exception Plain "IDL:Plain:1.0" { };
