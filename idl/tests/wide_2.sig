signatures 2;

// Written by giopdump_signatures from wide.idl.
// whole: 2 operations, 0 exceptions, 0 types; by half: 2 operations; left out: 4 operations, 1 exception.

// Every object
operation boolean _is_a(in string logical_type_id);
operation boolean _non_existent();

// W::Desk (wide.idl:10)
// left out: exception W::Odd (wide.idl:9): member why: wstring
// parameter who of the request: rest (wstring)
// the return value: rest (wstring)
operation void greet(in octet n);
// left out: W::Desk::fill (wide.idl:12): parameter one: needs W::Page
// left out: W::Desk::choose (wide.idl:13): parameter one: needs W::Either
// the return value: rest (wstring)
operation void line(in long at);
// left out: W::Desk::_get_title (wide.idl:16): return value: wstring
// left out: W::Desk::_set_title (wide.idl:16): value: wstring

// Types that can't be said, or that need one
// left out: W::Page (wide.idl:7): member first: wstring
// left out: W::Either (wide.idl:8): member mark: wchar
