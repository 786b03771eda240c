signatures 3;

// Written by giopdump_signatures from depth.idl.
// whole: 4 operations, 0 exceptions, 23 types; by half: 0 operations; left out: 3 operations, 0 exceptions.

// Every object
operation boolean _is_a(in string logical_type_id);
operation boolean _non_existent();

// D::Well (depth.idl:28)
struct D2 "IDL:D/D2:1.0" { long v; };
struct D3 "IDL:D/D3:1.0" { D2 v; };
struct D4 "IDL:D/D4:1.0" { D3 v; };
struct D5 "IDL:D/D5:1.0" { D4 v; };
struct D6 "IDL:D/D6:1.0" { D5 v; };
struct D7 "IDL:D/D7:1.0" { D6 v; };
struct D8 "IDL:D/D8:1.0" { D7 v; };
struct D9 "IDL:D/D9:1.0" { D8 v; };
struct D10 "IDL:D/D10:1.0" { D9 v; };
struct D11 "IDL:D/D11:1.0" { D10 v; };
struct D12 "IDL:D/D12:1.0" { D11 v; };
struct D13 "IDL:D/D13:1.0" { D12 v; };
struct D14 "IDL:D/D14:1.0" { D13 v; };
struct D15 "IDL:D/D15:1.0" { D14 v; };
struct D16 "IDL:D/D16:1.0" { D15 v; };
struct D17 "IDL:D/D17:1.0" { D16 v; };
struct D18 "IDL:D/D18:1.0" { D17 v; };
struct D19 "IDL:D/D19:1.0" { D18 v; };
struct D20 "IDL:D/D20:1.0" { D19 v; };
struct D21 "IDL:D/D21:1.0" { D20 v; };
struct D22 "IDL:D/D22:1.0" { D21 v; };
struct D23 "IDL:D/D23:1.0" { D22 v; };
operation void fits(in D23 d);
// left out: D::Well::too_deep (depth.idl:30): parameter d: 25 levels deep, 24 at most
// left out: D::Well::much_too_deep (depth.idl:31): parameter d: needs D::D25
operation void reply_fits(out D23 d);
// left out: D::Well::reply_too_deep (depth.idl:33): return value: 25 levels deep, 24 at most

// Types that only an any may have
struct D24 "IDL:D/D24:1.0" { D23 v; };

// Types that can't be said, or that need one
// left out: D::D25 (depth.idl:26): 25 levels deep, 24 at most
