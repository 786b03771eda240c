signatures 3;

// Written by giopdump_signatures from anys.idl.
// whole: 4 operations, 0 exceptions, 7 types; by half: 0 operations; left out: 0 operations, 0 exceptions.

// Every object
operation boolean _is_a(in string logical_type_id);
operation boolean _non_existent();

// A::Box (anys.idl:15)
operation any get(in string name);
struct Twice "IDL:A/Twice:1.0" { any first; sequence<any> more; };
operation void set(in Twice both);

// Types that only an any may have
enum Colour "IDL:A/Colour:1.0" { red, green };
struct Money "IDL:Coins:2.0" { longlong cents; };
union Either "IDL:A/Either:1.0" switch (boolean) { case true: long n; default: string s; };
struct Here { long n; };
struct There { long n; };
struct Wide "IDL:A/Wide:1.0" { wstring text; };

// Types that can't be said, or that need one
// left out: A::Exact (anys.idl:11): member number: long double
