signatures 3;

// Written by giopdump_signatures from interfaces.idl.
// whole: 13 operations, 0 exceptions, 0 types; by half: 0 operations; left out: 3 operations, 0 exceptions.

// Every object
operation boolean _is_a(in string logical_type_id);
operation boolean _non_existent();

// Shop::Base (interfaces.idl:3)
// ping without an interface: rest (unequal parameters: Store::Stock::ping (interfaces.idl:18), Store::Twin::ping (interfaces.idl:25), Store::Other::ping (interfaces.idl:26))
operation void ping()
  of "IDL:Shop/Base:1.0", "IDL:Shop/Orders:1.0", "IDL:Shop/OldOrders:1.0", "IDL:Store/Archive:1.0";
// _get_level without an interface: rest (unequal parameters: Store::Stock::_get_level (interfaces.idl:19))
operation long _get_level()
  of "IDL:Shop/Base:1.0", "IDL:Shop/Orders:1.0", "IDL:Shop/OldOrders:1.0", "IDL:Store/Archive:1.0";
operation void _set_level(in long value);

// Shop::Orders (interfaces.idl:7)
// parameter id of the request: rest (unequal parameters: Store::Stock::get (interfaces.idl:16))
operation long get();
operation long get(in ulonglong id)
  of "IDL:Shop/Orders:1.0", "IDL:Shop/OldOrders:1.0", "IDL:Store/Archive:1.0";
// cancel without an interface: rest (unequal parameters: Store::Stock::cancel (interfaces.idl:17), Store::Unwritten::cancel (interfaces.idl:29))
operation void cancel(in ulonglong id)
  of "IDL:Shop/Orders:1.0", "IDL:Shop/OldOrders:1.0", "IDL:Store/Archive:1.0";

// Shop::OldOrders (interfaces.idl:11)
operation void ping_all();

// Store::Stock (interfaces.idl:15)
operation long get(in string article) of "IDL:warehouse.example/Stock:2.1";
operation void cancel(in string reservation, in boolean all) of "IDL:warehouse.example/Stock:2.1";
operation void ping(in string text) of "IDL:warehouse.example/Stock:2.1";
operation string _get_level() of "IDL:warehouse.example/Stock:2.1";

// Store::Archive (interfaces.idl:21)
operation string ping_some();

// Store::Twin (interfaces.idl:25)
// left out: Store::Twin::ping (interfaces.idl:25): unequal parameters: Shop::Base::ping (interfaces.idl:4)

// Store::Other (interfaces.idl:26)
// left out: Store::Other::ping (interfaces.idl:26): unequal parameters: Shop::Base::ping (interfaces.idl:4)

// Store::Unwritten (interfaces.idl:29)
// left out: Store::Unwritten::cancel (interfaces.idl:29): unequal parameters: Shop::Orders::cancel (interfaces.idl:9)

// Keys of objects, as giop-keys finds them in a dump
// key "" of "IDL:Shop/Base:1.0";
// key "" of "IDL:Shop/Orders:1.0";
// key "" of "IDL:Shop/OldOrders:1.0";
// key "" of "IDL:Store/Archive:1.0";
// key "" of "IDL:warehouse.example/Stock:2.1";
