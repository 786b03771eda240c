signatures 3;
// The operations of the events that anys.py makes, and the types of what they carry.
struct EventType "IDL:omg.org/CosNotification/EventType:1.0" { string domain_name; string type_name; };
struct FixedEventHeader "IDL:omg.org/CosNotification/FixedEventHeader:1.0" { EventType event_type; string event_name; };
struct Property "IDL:omg.org/CosNotification/Property:1.0" { string name; any value; };
struct EventHeader "IDL:omg.org/CosNotification/EventHeader:1.0" {
  FixedEventHeader fixed_header;
  sequence<Property> variable_header;
};
struct StructuredEvent "IDL:omg.org/CosNotification/StructuredEvent:1.0" {
  EventHeader header;
  sequence<Property> filterable_data;
  any remainder_of_body;
};
enum Currency "IDL:shop.example/Shop/Currency:1.0" { EUR, USD, JPY };
struct Money "IDL:shop.example/Shop/Money:1.0" { longlong cents; Currency unit; };
operation void push(in any data);
operation void push_structured_event(in StructuredEvent notification);
