signatures 3;

// Written by giopdump_signatures from names.idl.
// whole: 6 operations, 2 exceptions, 6 types; by half: 0 operations; left out: 0 operations, 0 exceptions.

// Every object
operation boolean _is_a(in string logical_type_id);
operation boolean _non_existent();

// Shop::Till (names.idl:6)
exception Shop_Refused "IDL:Shop/Refused:1.0" { string why; };
enum State "IDL:Shop/State:1.0" { open, closed, operation_ };
struct Shop_Item "IDL:Shop/Item:1.0" { string ulong_; State now; long sequence_; };
operation void sell(in Shop_Item thing, in State return_);

// Store::Shelf (names.idl:11)
struct Store_Item "IDL:Store/Item:1.0" { string label; };
exception Store_Refused "IDL:Store/Refused:1.0" { Store_Item what; };
operation Store_Item take(in long operation_);

// Store::Back::Room (names.idl:15)
union Fate "IDL:Store/Back/Fate:1.0" switch (State) {
  case operation_: long string_;
  default: octet signatures_;
};
struct encapsulation_ "IDL:Store/Back/encapsulation:1.0" { octet signatures_; };
operation encapsulation_ look(in Shop_Item one, in Store_Item two, in Fate three);

// Store::Attic (names.idl:20)
struct ANameOfSixtySevenOctetsWhichIsThreeMoreThanASignatureFileMayHa_1 "IDL:Store/ANameOfSixtySevenOctetsWhichIsThreeMoreThanASignatureFileMayHaveYes:1.0" {
  long AMemberOfSixtySevenOctetsThatDiffersFromTheNextInItsLastLetter_1;
  long AMemberOfSixtySevenOctetsThatDiffersFromTheNextInItsLastLetter_2;
};
operation void keep(in ANameOfSixtySevenOctetsWhichIsThreeMoreThanASignatureFileMayHa_1 it);
