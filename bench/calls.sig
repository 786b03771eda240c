signatures 1;
// The operations of the calls that typed.py, fragments.py, openers.py, large.py and doubles.py make.
enum Colour { red, green, blue };
struct Point { long x; long y; double weight; };
struct Track { string name; Colour colour; sequence<Point> points; };
union Remark switch (short) { case 0: string note; default: longlong number; };
operation void record(in Track track, in Remark remark, in sequence<ulong> marks, in boolean closed, in sequence<octet> picture);
operation void store(in sequence<octet> data);
operation void plot(in sequence<double> values);
