signatures 3;

// Written by giopdump_signatures from event.idl.
// whole: 9 operations, 1 exception, 2 types; by half: 0 operations; left out: 0 operations, 0 exceptions.

// Every object
operation boolean _is_a(in string logical_type_id);
operation boolean _non_existent();

// CosEventComm::PushConsumer (CosEventComm.idl:16)
exception Disconnected "IDL:omg.org/CosEventComm/Disconnected:1.0" { };
operation void push(in any data);
operation void disconnect_push_consumer();

// CosEventComm::PushSupplier (CosEventComm.idl:21)
operation void disconnect_push_supplier();

// CosEventComm::PullSupplier (CosEventComm.idl:25)
operation any pull();
operation any try_pull(out boolean has_event);
operation void disconnect_pull_supplier();

// CosEventComm::PullConsumer (CosEventComm.idl:32)
operation void disconnect_pull_consumer();

// Types that only an any may have
enum Currency "IDL:shop.example/Shop/Currency:1.0" { EUR, USD, JPY };
struct Money "IDL:shop.example/Shop/Money:1.0" { longlong cents; Currency unit; };
