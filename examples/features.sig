signatures 2;

// One declaration for each feature of a signature file.

// Every object answers this one.
operation boolean _is_a(in string logical_type_id);

// An attribute `name` travels as two operations.
operation string _get_name();
operation void _set_name(in string name);

enum Colour { red, green, blue };
struct Point { long x; long y; };
union Mark switch (Colour) {
  case red: Point point;
  case green: case blue: sequence<Point, 16> line;
  default: string<32> note;
};
union Choice switch (short) {
  case -1: boolean flag;
  case 0: case 1: char letter;
};

exception NotFound "IDL:Plotter/NotFound:1.0" { string what; };
exception Busy "IDL:Plotter/Busy:1.0" { };

operation Object find(in sequence<octet> key, inout Mark mark, out ulong hits[3]);
operation double scale(in float by, in sequence<sequence<ushort>, 8> rows, out longlong sum, out ulonglong squares);
operation octet choose(in Choice choice);
operation void ping();

// Octets with a byte order of their own, which `signatures 2;` allows.
operation void keep(in encapsulation<Point> at, in sequence<encapsulation<string>, 4> notes);
