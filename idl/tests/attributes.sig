signatures 3;

// Written by giopdump_signatures from attributes.idl.
// whole: 13 operations, 0 exceptions, 0 types; by half: 0 operations; left out: 0 operations, 0 exceptions.

// Every object
operation boolean _is_a(in string logical_type_id);
operation boolean _non_existent();

// Lab::Named (attributes.idl:4)
operation string _get_name();
operation void _set_name(in string value);
operation sequence<octet> _get_key();

// Lab::Left (attributes.idl:6)
operation void ping(in long count);

// Lab::Right (attributes.idl:7)
operation void nop();

// Lab::Both (attributes.idl:8)
operation boolean _get_lit();
operation void _set_lit(in boolean value);
operation boolean _get_loud();
operation void _set_loud(in boolean value);
operation double scale(in float by, inout short step, out ulonglong squares);
operation string where(in char mark, in sequence<string> context);
