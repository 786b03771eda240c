signatures 3;

// Written by giopdump_signatures from unions.idl.
// whole: 4 operations, 0 exceptions, 13 types; by half: 0 operations; left out: 0 operations, 0 exceptions.

// Every object
operation boolean _is_a(in string logical_type_id);
operation boolean _non_existent();

// U::All (unions.idl:16)
enum Colour "IDL:U/Colour:1.0" { red, green, blue };
union ByColour "IDL:U/ByColour:1.0" switch (Colour) { case red: long a; case green: case blue: string b; };
union ByChar "IDL:U/ByChar:1.0" switch (char) {
  case 97: octet x;
  case 255: case 34: short y[2];
  default: string z;
};
union ByBoolean "IDL:U/ByBoolean:1.0" switch (boolean) { case false: long no; case true: double yes; };
union ByShort "IDL:U/ByShort:1.0" switch (short) { case -32768: boolean low; case 32767: boolean high; };
union ByUShort "IDL:U/ByUShort:1.0" switch (ushort) { case 65535: char c; default: octet o; };
union ByLong "IDL:U/ByLong:1.0" switch (long) { case -2147483647: case 5: string s; };
union ByULong "IDL:U/ByULong:1.0" switch (ulong) { case 4294967295: ushort u; };
union ByLongLong "IDL:U/ByLongLong:1.0" switch (longlong) {
  case -9223372036854775807: ByBoolean inner;
  default: Colour c;
};
union ByULongLong "IDL:U/ByULongLong:1.0" switch (ulonglong) {
  case 18446744073709551615: sequence<Colour, 3> few;
};
enum Sort "IDL:U/ByInline/Sort:1.0" { plain, fancy };
union ByInline "IDL:U/ByInline:1.0" switch (Sort) { case fancy: string trim; default: octet rest; };
union ByAlias "IDL:U/ByAlias:1.0" switch (Colour) { case green: long g; default: long other; };
operation void take(
  in ByColour a,
  in ByChar b,
  in ByBoolean c,
  in ByShort d,
  in ByUShort e,
  in ByLong f,
  in ByULong g,
  in ByLongLong h,
  in ByULongLong i,
  in ByInline j,
  in ByAlias k
);
operation ByChar give(inout ByBoolean flag);
