signatures 1;

// Written by giopdump_signatures from CosNaming.idl.
// whole: 19 operations, 6 exceptions, 4 types; by half: 0 operations; left out: 0 operations, 0 exceptions.

// Every object
operation boolean _is_a(in string logical_type_id);
operation boolean _non_existent();

// CosNaming::NamingContext (CosNaming.idl:45)
enum NotFoundReason { missing_node, not_context, not_object };
struct NameComponent { string id; string kind; };
exception NotFound "IDL:omg.org/CosNaming/NamingContext/NotFound:1.0" {
  NotFoundReason why;
  sequence<NameComponent> rest_of_name;
};
exception CannotProceed "IDL:omg.org/CosNaming/NamingContext/CannotProceed:1.0" {
  Object cxt;
  sequence<NameComponent> rest_of_name;
};
exception InvalidName "IDL:omg.org/CosNaming/NamingContext/InvalidName:1.0" { };
exception AlreadyBound "IDL:omg.org/CosNaming/NamingContext/AlreadyBound:1.0" { };
exception NotEmpty "IDL:omg.org/CosNaming/NamingContext/NotEmpty:1.0" { };
operation void bind(in sequence<NameComponent> n, in Object obj);
operation void rebind(in sequence<NameComponent> n, in Object obj);
operation void bind_context(in sequence<NameComponent> n, in Object nc);
operation void rebind_context(in sequence<NameComponent> n, in Object nc);
operation Object resolve(in sequence<NameComponent> n);
operation void unbind(in sequence<NameComponent> n);
operation Object new_context();
operation Object bind_new_context(in sequence<NameComponent> n);
operation void destroy();
enum BindingType { nobject, ncontext };
struct Binding { sequence<NameComponent> binding_name; BindingType binding_type; };
operation void list(in ulong how_many, out sequence<Binding> bl, out Object bi);

// CosNaming::BindingIterator (CosNaming.idl:93)
operation boolean next_one(out Binding b);
operation boolean next_n(in ulong how_many, out sequence<Binding> bl);
// destroy (CosNaming.idl:96) travels like CosNaming::NamingContext::destroy (CosNaming.idl:86)

// CosNaming::NamingContextExt (CosNaming.idl:99)
exception InvalidAddress "IDL:omg.org/CosNaming/NamingContextExt/InvalidAddress:1.0" { };
operation string to_string(in sequence<NameComponent> n);
operation sequence<NameComponent> to_name(in string sn);
operation string to_url(in string addr, in string sn);
operation Object resolve_str(in string n);
