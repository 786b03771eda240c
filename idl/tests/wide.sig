signatures 3;

// Written by giopdump_signatures from wide.idl.
// whole: 8 operations, 1 exception, 3 types; by half: 0 operations; left out: 0 operations, 0 exceptions.

// Every object
operation boolean _is_a(in string logical_type_id);
operation boolean _non_existent();

// W::Desk (wide.idl:10)
exception Odd "IDL:W/Odd:1.0" { wstring why; };
operation wstring greet(in octet n, in wstring who, in wchar mark, in short m);
struct Page "IDL:W/Page:1.0" { wstring first; wstring<8> others[2]; wchar last; };
operation wstring<8> fill(inout Page one, out sequence<wchar, 3> some);
union Either "IDL:W/Either:1.0" switch (short) { case 1: wchar mark; default: wstring text; };
operation void choose(in Either one);
struct wstring_x2 { wstring v[2]; };
operation wstring_x2 line(in long at);
operation wstring<3> _get_title();
operation void _set_title(in wstring<3> value);
