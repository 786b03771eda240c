signatures 3;

// Written by giopdump_signatures from includes.idl.
// whole: 4 operations, 0 exceptions, 1 type; by half: 0 operations; left out: 0 operations, 0 exceptions.

// Every object
operation boolean _is_a(in string logical_type_id);
operation boolean _non_existent();

// Common::Clock (included.inc:4)
struct Stamp "IDL:Common/Stamp:1.0" { ulonglong ticks; };
operation Stamp now();

// Main::Watch (includes.idl:3)
operation void wind(in Stamp until);
