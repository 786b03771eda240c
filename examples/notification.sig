signatures 3;

// Written by giopdump_signatures from CosNotifyChannelAdmin.idl.
// whole: 144 operations, 21 exceptions, 18 types; by half: 0 operations; left out: 0 operations, 0 exceptions.

// Every object
operation boolean _is_a(in string logical_type_id);
operation boolean _non_existent();

// CosNotification::QoSAdmin (CosNotification.idl:137)
enum QoSError_code "IDL:omg.org/CosNotification/QoSError_code:1.0" {
  UNSUPPORTED_PROPERTY,
  UNAVAILABLE_PROPERTY,
  UNSUPPORTED_VALUE,
  UNAVAILABLE_VALUE,
  BAD_PROPERTY,
  BAD_TYPE,
  BAD_VALUE
};
struct PropertyRange "IDL:omg.org/CosNotification/PropertyRange:1.0" { any low_val; any high_val; };
struct PropertyError "IDL:omg.org/CosNotification/PropertyError:1.0" {
  QoSError_code code;
  string name;
  PropertyRange available_range;
};
exception UnsupportedQoS "IDL:omg.org/CosNotification/UnsupportedQoS:1.0" {
  sequence<PropertyError> qos_err;
};
struct Property "IDL:omg.org/CosNotification/Property:1.0" { string name; any value; };
operation sequence<Property> get_qos();
operation void set_qos(in sequence<Property> qos);
struct NamedPropertyRange "IDL:omg.org/CosNotification/NamedPropertyRange:1.0" {
  string name;
  PropertyRange range;
};
operation void validate_qos(
  in sequence<Property> required_qos,
  out sequence<NamedPropertyRange> available_qos
);

// CosNotification::AdminPropertiesAdmin (CosNotification.idl:168)
exception UnsupportedAdmin "IDL:omg.org/CosNotification/UnsupportedAdmin:1.0" {
  sequence<PropertyError> admin_err;
};
operation sequence<Property> get_admin();
operation void set_admin(in sequence<Property> admin);

// CosEventComm::PushConsumer (CosEventComm.idl:16)
exception Disconnected "IDL:omg.org/CosEventComm/Disconnected:1.0" { };
operation void push(in any data);
operation void disconnect_push_consumer();

// CosEventComm::PushSupplier (CosEventComm.idl:21)
operation void disconnect_push_supplier();

// CosEventComm::PullSupplier (CosEventComm.idl:25)
operation any pull();
operation any try_pull(out boolean has_event);
operation void disconnect_pull_supplier();

// CosEventComm::PullConsumer (CosEventComm.idl:32)
operation void disconnect_pull_consumer();

// CosNotifyComm::NotifyPublish (CosNotifyComm.idl:19)
struct EventType "IDL:omg.org/CosNotification/EventType:1.0" { string domain_name; string type_name; };
exception InvalidEventType "IDL:omg.org/CosNotifyComm/InvalidEventType:1.0" { EventType type; };
operation void offer_change(in sequence<EventType> added, in sequence<EventType> removed);

// CosNotifyComm::NotifySubscribe (CosNotifyComm.idl:28)
operation void subscription_change(in sequence<EventType> added, in sequence<EventType> removed);

// CosNotifyComm::StructuredPushConsumer (CosNotifyComm.idl:57)
struct FixedEventHeader "IDL:omg.org/CosNotification/FixedEventHeader:1.0" {
  EventType event_type;
  string event_name;
};
struct EventHeader "IDL:omg.org/CosNotification/EventHeader:1.0" {
  FixedEventHeader fixed_header;
  sequence<Property> variable_header;
};
struct StructuredEvent "IDL:omg.org/CosNotification/StructuredEvent:1.0" {
  EventHeader header;
  sequence<Property> filterable_data;
  any remainder_of_body;
};
operation void push_structured_event(in StructuredEvent notification);
operation void disconnect_structured_push_consumer();

// CosNotifyComm::StructuredPullConsumer (CosNotifyComm.idl:67)
operation void disconnect_structured_pull_consumer();

// CosNotifyComm::StructuredPullSupplier (CosNotifyComm.idl:71)
operation StructuredEvent pull_structured_event();
operation StructuredEvent try_pull_structured_event(out boolean has_event);
operation void disconnect_structured_pull_supplier();

// CosNotifyComm::StructuredPushSupplier (CosNotifyComm.idl:84)
operation void disconnect_structured_push_supplier();

// CosNotifyComm::SequencePushConsumer (CosNotifyComm.idl:88)
operation void push_structured_events(in sequence<StructuredEvent> notifications);
operation void disconnect_sequence_push_consumer();

// CosNotifyComm::SequencePullConsumer (CosNotifyComm.idl:98)
operation void disconnect_sequence_pull_consumer();

// CosNotifyComm::SequencePullSupplier (CosNotifyComm.idl:102)
operation sequence<StructuredEvent> pull_structured_events(in long max_number);
operation sequence<StructuredEvent> try_pull_structured_events(in long max_number, out boolean has_event);
operation void disconnect_sequence_pull_supplier();

// CosNotifyComm::SequencePushSupplier (CosNotifyComm.idl:117)
operation void disconnect_sequence_push_supplier();

// CosNotifyFilter::Filter (CosNotifyFilter.idl:61)
struct ConstraintExp "IDL:omg.org/CosNotifyFilter/ConstraintExp:1.0" {
  sequence<EventType> event_types;
  string constraint_expr;
};
exception InvalidConstraint "IDL:omg.org/CosNotifyFilter/InvalidConstraint:1.0" { ConstraintExp constr; };
exception ConstraintNotFound "IDL:omg.org/CosNotifyFilter/ConstraintNotFound:1.0" { long id; };
exception UnsupportedFilterableData "IDL:omg.org/CosNotifyFilter/UnsupportedFilterableData:1.0" { };
exception CallbackNotFound "IDL:omg.org/CosNotifyFilter/CallbackNotFound:1.0" { };
operation string _get_constraint_grammar();
struct ConstraintInfo "IDL:omg.org/CosNotifyFilter/ConstraintInfo:1.0" {
  ConstraintExp constraint_expression;
  long constraint_id;
};
operation sequence<ConstraintInfo> add_constraints(in sequence<ConstraintExp> constraint_list);
operation void modify_constraints(in sequence<long> del_list, in sequence<ConstraintInfo> modify_list);
operation sequence<ConstraintInfo> get_constraints(in sequence<long> id_list);
operation sequence<ConstraintInfo> get_all_constraints();
operation void remove_all_constraints();
operation void destroy();
// what follows in the reply: rest (unequal parameters: CosNotifyFilter::MappingFilter::match (CosNotifyFilter.idl:133))
operation boolean match(in any filterable_data);
operation boolean match(in any filterable_data) of "IDL:omg.org/CosNotifyFilter/Filter:1.0";
// what follows in the reply: rest (unequal parameters: CosNotifyFilter::MappingFilter::match_structured (CosNotifyFilter.idl:137))
operation boolean match_structured(in StructuredEvent filterable_data);
operation boolean match_structured(in StructuredEvent filterable_data)
  of "IDL:omg.org/CosNotifyFilter/Filter:1.0";
// what follows in the reply: rest (unequal parameters: CosNotifyFilter::MappingFilter::match_typed (CosNotifyFilter.idl:142))
operation boolean match_typed(in sequence<Property> filterable_data);
operation boolean match_typed(in sequence<Property> filterable_data)
  of "IDL:omg.org/CosNotifyFilter/Filter:1.0";
operation long attach_callback(in Object callback);
operation void detach_callback(in long callback);
operation sequence<long> get_callbacks();

// CosNotifyFilter::MappingFilter (CosNotifyFilter.idl:105)
exception InvalidValue "IDL:omg.org/CosNotifyFilter/InvalidValue:1.0" { ConstraintExp constr; any value; };
// _get_constraint_grammar (CosNotifyFilter.idl:107) travels like CosNotifyFilter::Filter::_get_constraint_grammar (CosNotifyFilter.idl:63)
operation TypeCode _get_value_type();
operation any _get_default_value();
struct MappingConstraintPair "IDL:omg.org/CosNotifyFilter/MappingConstraintPair:1.0" {
  ConstraintExp constraint_expression;
  any result_to_set;
};
struct MappingConstraintInfo "IDL:omg.org/CosNotifyFilter/MappingConstraintInfo:1.0" {
  ConstraintExp constraint_expression;
  long constraint_id;
  any value;
};
operation sequence<MappingConstraintInfo> add_mapping_constraints(
  in sequence<MappingConstraintPair> pair_list
);
operation void modify_mapping_constraints(
  in sequence<long> del_list,
  in sequence<MappingConstraintInfo> modify_list
);
operation sequence<MappingConstraintInfo> get_mapping_constraints(in sequence<long> id_list);
operation sequence<MappingConstraintInfo> get_all_mapping_constraints();
operation void remove_all_mapping_constraints();
// destroy (CosNotifyFilter.idl:131) travels like CosNotifyFilter::Filter::destroy (CosNotifyFilter.idl:82)
operation boolean match(in any filterable_data, out any result_to_set)
  of "IDL:omg.org/CosNotifyFilter/MappingFilter:1.0";
operation boolean match_structured(in StructuredEvent filterable_data, out any result_to_set)
  of "IDL:omg.org/CosNotifyFilter/MappingFilter:1.0";
operation boolean match_typed(in sequence<Property> filterable_data, out any result_to_set)
  of "IDL:omg.org/CosNotifyFilter/MappingFilter:1.0";

// CosNotifyFilter::FilterFactory (CosNotifyFilter.idl:149)
exception InvalidGrammar "IDL:omg.org/CosNotifyFilter/InvalidGrammar:1.0" { };
operation Object create_filter(in string constraint_grammar);
operation Object create_mapping_filter(in string constraint_grammar, in any default_value);

// CosNotifyFilter::FilterAdmin (CosNotifyFilter.idl:167)
exception FilterNotFound "IDL:omg.org/CosNotifyFilter/FilterNotFound:1.0" { };
operation long add_filter(in Object new_filter);
operation void remove_filter(in long filter);
operation Object get_filter(in long filter);
operation sequence<long> get_all_filters();
operation void remove_all_filters();

// CosEventChannelAdmin::ProxyPushConsumer (CosEventChannelAdmin.idl:19)
exception AlreadyConnected "IDL:omg.org/CosEventChannelAdmin/AlreadyConnected:1.0" { };
operation void connect_push_supplier(in Object push_supplier);

// CosEventChannelAdmin::ProxyPullSupplier (CosEventChannelAdmin.idl:25)
operation void connect_pull_consumer(in Object pull_consumer);

// CosEventChannelAdmin::ProxyPullConsumer (CosEventChannelAdmin.idl:31)
exception TypeError "IDL:omg.org/CosEventChannelAdmin/TypeError:1.0" { };
operation void connect_pull_supplier(in Object pull_supplier);

// CosEventChannelAdmin::ProxyPushSupplier (CosEventChannelAdmin.idl:37)
operation void connect_push_consumer(in Object push_consumer);

// CosEventChannelAdmin::ConsumerAdmin (CosEventChannelAdmin.idl:43)
operation Object obtain_push_supplier();
operation Object obtain_pull_supplier();

// CosEventChannelAdmin::SupplierAdmin (CosEventChannelAdmin.idl:48)
operation Object obtain_push_consumer();
operation Object obtain_pull_consumer();

// CosEventChannelAdmin::EventChannel (CosEventChannelAdmin.idl:53)
operation Object for_consumers();
operation Object for_suppliers();
// destroy (CosEventChannelAdmin.idl:56) travels like CosNotifyFilter::Filter::destroy (CosNotifyFilter.idl:82)

// CosNotifyChannelAdmin::ProxyConsumer (CosNotifyChannelAdmin.idl:49)
enum ProxyType "IDL:omg.org/CosNotifyChannelAdmin/ProxyType:1.0" {
  PUSH_ANY,
  PULL_ANY,
  PUSH_STRUCTURED,
  PULL_STRUCTURED,
  PUSH_SEQUENCE,
  PULL_SEQUENCE,
  PUSH_TYPED,
  PULL_TYPED
};
operation ProxyType _get_MyType();
operation Object _get_MyAdmin();
enum ObtainInfoMode "IDL:omg.org/CosNotifyChannelAdmin/ObtainInfoMode:1.0" {
  ALL_NOW_UPDATES_OFF,
  ALL_NOW_UPDATES_ON,
  NONE_NOW_UPDATES_OFF,
  NONE_NOW_UPDATES_ON
};
operation sequence<EventType> obtain_subscription_types(in ObtainInfoMode mode);
operation void validate_event_qos(
  in sequence<Property> required_qos,
  out sequence<NamedPropertyRange> available_qos
);

// CosNotifyChannelAdmin::ProxySupplier (CosNotifyChannelAdmin.idl:66)
// _get_MyType (CosNotifyChannelAdmin.idl:68) travels like CosNotifyChannelAdmin::ProxyConsumer::_get_MyType (CosNotifyChannelAdmin.idl:51)
// _get_MyAdmin (CosNotifyChannelAdmin.idl:69) travels like CosNotifyChannelAdmin::ProxyConsumer::_get_MyAdmin (CosNotifyChannelAdmin.idl:52)
operation Object _get_priority_filter();
operation void _set_priority_filter(in Object value);
operation Object _get_lifetime_filter();
operation void _set_lifetime_filter(in Object value);
operation sequence<EventType> obtain_offered_types(in ObtainInfoMode mode);
// validate_event_qos (CosNotifyChannelAdmin.idl:77) travels like CosNotifyChannelAdmin::ProxyConsumer::validate_event_qos (CosNotifyChannelAdmin.idl:57)

// CosNotifyChannelAdmin::ProxyPushConsumer (CosNotifyChannelAdmin.idl:86)
operation void connect_any_push_supplier(in Object push_supplier);

// CosNotifyChannelAdmin::StructuredProxyPushConsumer (CosNotifyChannelAdmin.idl:96)
operation void connect_structured_push_supplier(in Object push_supplier);

// CosNotifyChannelAdmin::SequenceProxyPushConsumer (CosNotifyChannelAdmin.idl:106)
operation void connect_sequence_push_supplier(in Object push_supplier);

// CosNotifyChannelAdmin::ProxyPullSupplier (CosNotifyChannelAdmin.idl:116)
operation void connect_any_pull_consumer(in Object pull_consumer);

// CosNotifyChannelAdmin::StructuredProxyPullSupplier (CosNotifyChannelAdmin.idl:126)
operation void connect_structured_pull_consumer(in Object pull_consumer);

// CosNotifyChannelAdmin::SequenceProxyPullSupplier (CosNotifyChannelAdmin.idl:136)
operation void connect_sequence_pull_consumer(in Object pull_consumer);

// CosNotifyChannelAdmin::ProxyPullConsumer (CosNotifyChannelAdmin.idl:146)
exception ConnectionAlreadyInactive "IDL:omg.org/CosNotifyChannelAdmin/ConnectionAlreadyInactive:1.0" { };
exception NotConnected "IDL:omg.org/CosNotifyChannelAdmin/NotConnected:1.0" { };
exception ConnectionAlreadyActive "IDL:omg.org/CosNotifyChannelAdmin/ConnectionAlreadyActive:1.0" { };
operation void connect_any_pull_supplier(in Object pull_supplier);
operation void suspend_connection();
operation void resume_connection();

// CosNotifyChannelAdmin::StructuredProxyPullConsumer (CosNotifyChannelAdmin.idl:163)
operation void connect_structured_pull_supplier(in Object pull_supplier);
// suspend_connection (CosNotifyChannelAdmin.idl:170) travels like CosNotifyChannelAdmin::ProxyPullConsumer::suspend_connection (CosNotifyChannelAdmin.idl:153)
// resume_connection (CosNotifyChannelAdmin.idl:173) travels like CosNotifyChannelAdmin::ProxyPullConsumer::resume_connection (CosNotifyChannelAdmin.idl:156)

// CosNotifyChannelAdmin::SequenceProxyPullConsumer (CosNotifyChannelAdmin.idl:180)
operation void connect_sequence_pull_supplier(in Object pull_supplier);
// suspend_connection (CosNotifyChannelAdmin.idl:187) travels like CosNotifyChannelAdmin::ProxyPullConsumer::suspend_connection (CosNotifyChannelAdmin.idl:153)
// resume_connection (CosNotifyChannelAdmin.idl:190) travels like CosNotifyChannelAdmin::ProxyPullConsumer::resume_connection (CosNotifyChannelAdmin.idl:156)

// CosNotifyChannelAdmin::ProxyPushSupplier (CosNotifyChannelAdmin.idl:197)
operation void connect_any_push_consumer(in Object push_consumer);
// suspend_connection (CosNotifyChannelAdmin.idl:204) travels like CosNotifyChannelAdmin::ProxyPullConsumer::suspend_connection (CosNotifyChannelAdmin.idl:153)
// resume_connection (CosNotifyChannelAdmin.idl:207) travels like CosNotifyChannelAdmin::ProxyPullConsumer::resume_connection (CosNotifyChannelAdmin.idl:156)

// CosNotifyChannelAdmin::StructuredProxyPushSupplier (CosNotifyChannelAdmin.idl:214)
operation void connect_structured_push_consumer(in Object push_consumer);
// suspend_connection (CosNotifyChannelAdmin.idl:221) travels like CosNotifyChannelAdmin::ProxyPullConsumer::suspend_connection (CosNotifyChannelAdmin.idl:153)
// resume_connection (CosNotifyChannelAdmin.idl:224) travels like CosNotifyChannelAdmin::ProxyPullConsumer::resume_connection (CosNotifyChannelAdmin.idl:156)

// CosNotifyChannelAdmin::SequenceProxyPushSupplier (CosNotifyChannelAdmin.idl:231)
operation void connect_sequence_push_consumer(in Object push_consumer);
// suspend_connection (CosNotifyChannelAdmin.idl:238) travels like CosNotifyChannelAdmin::ProxyPullConsumer::suspend_connection (CosNotifyChannelAdmin.idl:153)
// resume_connection (CosNotifyChannelAdmin.idl:241) travels like CosNotifyChannelAdmin::ProxyPullConsumer::resume_connection (CosNotifyChannelAdmin.idl:156)

// CosNotifyChannelAdmin::ConsumerAdmin (CosNotifyChannelAdmin.idl:274)
exception ProxyNotFound "IDL:omg.org/CosNotifyChannelAdmin/ProxyNotFound:1.0" { };
struct AdminLimit "IDL:omg.org/CosNotifyChannelAdmin/AdminLimit:1.0" { string name; any value; };
exception AdminLimitExceeded "IDL:omg.org/CosNotifyChannelAdmin/AdminLimitExceeded:1.0" {
  AdminLimit admin_property_err;
};
operation long _get_MyID();
operation Object _get_MyChannel();
enum InterFilterGroupOperator "IDL:omg.org/CosNotifyChannelAdmin/InterFilterGroupOperator:1.0" {
  AND_OP,
  OR_OP
};
operation InterFilterGroupOperator _get_MyOperator();
// _get_priority_filter (CosNotifyChannelAdmin.idl:281) travels like CosNotifyChannelAdmin::ProxySupplier::_get_priority_filter (CosNotifyChannelAdmin.idl:71)
// _set_priority_filter (CosNotifyChannelAdmin.idl:281) travels like CosNotifyChannelAdmin::ProxySupplier::_set_priority_filter (CosNotifyChannelAdmin.idl:71)
// _get_lifetime_filter (CosNotifyChannelAdmin.idl:282) travels like CosNotifyChannelAdmin::ProxySupplier::_get_lifetime_filter (CosNotifyChannelAdmin.idl:72)
// _set_lifetime_filter (CosNotifyChannelAdmin.idl:282) travels like CosNotifyChannelAdmin::ProxySupplier::_set_lifetime_filter (CosNotifyChannelAdmin.idl:72)
operation sequence<long> _get_pull_suppliers();
operation sequence<long> _get_push_suppliers();
operation Object get_proxy_supplier(in long proxy_id);
enum ClientType "IDL:omg.org/CosNotifyChannelAdmin/ClientType:1.0" {
  ANY_EVENT,
  STRUCTURED_EVENT,
  SEQUENCE_EVENT
};
operation Object obtain_notification_pull_supplier(in ClientType ctype, out long proxy_id);
operation Object obtain_notification_push_supplier(in ClientType ctype, out long proxy_id);
// destroy (CosNotifyChannelAdmin.idl:301) travels like CosNotifyFilter::Filter::destroy (CosNotifyFilter.idl:82)

// CosNotifyChannelAdmin::SupplierAdmin (CosNotifyChannelAdmin.idl:309)
// _get_MyID (CosNotifyChannelAdmin.idl:311) travels like CosNotifyChannelAdmin::ConsumerAdmin::_get_MyID (CosNotifyChannelAdmin.idl:276)
// _get_MyChannel (CosNotifyChannelAdmin.idl:312) travels like CosNotifyChannelAdmin::ConsumerAdmin::_get_MyChannel (CosNotifyChannelAdmin.idl:277)
// _get_MyOperator (CosNotifyChannelAdmin.idl:314) travels like CosNotifyChannelAdmin::ConsumerAdmin::_get_MyOperator (CosNotifyChannelAdmin.idl:279)
operation sequence<long> _get_pull_consumers();
operation sequence<long> _get_push_consumers();
operation Object get_proxy_consumer(in long proxy_id);
operation Object obtain_notification_pull_consumer(in ClientType ctype, out long proxy_id);
operation Object obtain_notification_push_consumer(in ClientType ctype, out long proxy_id);
// destroy (CosNotifyChannelAdmin.idl:333) travels like CosNotifyFilter::Filter::destroy (CosNotifyFilter.idl:82)

// CosNotifyChannelAdmin::EventChannel (CosNotifyChannelAdmin.idl:340)
exception AdminNotFound "IDL:omg.org/CosNotifyChannelAdmin/AdminNotFound:1.0" { };
operation Object _get_MyFactory();
operation Object _get_default_consumer_admin();
operation Object _get_default_supplier_admin();
operation Object _get_default_filter_factory();
operation Object new_for_consumers(in InterFilterGroupOperator op, out long id);
operation Object new_for_suppliers(in InterFilterGroupOperator op, out long id);
operation Object get_consumeradmin(in long id);
operation Object get_supplieradmin(in long id);
operation sequence<long> get_all_consumeradmins();
operation sequence<long> get_all_supplieradmins();

// CosNotifyChannelAdmin::EventChannelFactory (CosNotifyChannelAdmin.idl:374)
exception ChannelNotFound "IDL:omg.org/CosNotifyChannelAdmin/ChannelNotFound:1.0" { };
operation Object create_channel(
  in sequence<Property> initial_qos,
  in sequence<Property> initial_admin,
  out long id
);
operation sequence<long> get_all_channels();
operation Object get_event_channel(in long id);

// Exceptions that no interface above declares or raises
exception DuplicateConstraintID "IDL:omg.org/CosNotifyFilter/DuplicateConstraintID:1.0" { long id; };

// Keys of objects, as giop-keys finds them in a dump
// key "" of "IDL:omg.org/CosNotifyFilter/Filter:1.0";
// key "" of "IDL:omg.org/CosNotifyFilter/MappingFilter:1.0";
