// Made of crates/ent_storage/specs by .ci/contracts.py. It isn't edited by hand.

//! The definitions of crate `ent_storage`, in the order in which one reads them:
//! [`bundle`], [`components`], [`entity_map`], [`birth_order`], [`places`], [`handle_map`], [`lends`], [`entry`], [`retained`], [`image`], [`sparse_map`], [`sparse_entry`], [`sparse_lends`].

#[doc(alias("Bundle", "IsBundle", "IsItem", "bundle_of", "with_put"))]
/// A bundle: the components that an entity is given, and their values.
///
/// <pre>
/// -- components and their values, in strictly ascending order of number
/// abbrev pub <b id="Bundle">Bundle</b> : Type 0
/// <a href="#Bundle">Bundle</a> = <a href="../../logic/index.html#List">List</a> (ComponentId × <a href="../../logic/index.html#ℤ">ℤ</a>)
/// </pre>
///
/// <pre>
/// -- a component's number is a byte, and its value has 64 bits
/// pub record <b id="IsItem">IsItem</b> (item : ComponentId × <a href="../../logic/index.html#ℤ">ℤ</a>) : Type 0 where
///   pub id : item.0.0 &lt; 2 ^ 8
///   pub value : FitsSigned w64 item.1
/// </pre>
///
/// <pre>
/// pub record <b id="IsBundle">IsBundle</b> (items : <a href="#Bundle">Bundle</a>) : Type 0 where
///   pub rising : <a href="../../logic/index.html#T">T</a> (<a href="../../logic/index.html#FinMap.is_sorted">is_sorted</a> <a href="../../ent_handle/component/index.html#component_cmp">component_cmp</a> items)
///   pub each : <a href="../../logic/index.html#All">All</a> <a href="#IsItem">IsItem</a> items
/// </pre>
///
/// <pre>
/// -- the bundle after each of the items was put into it, the first item first
/// abbrev pub <b id="with_put">with_put</b> : <a href="#Bundle">Bundle</a> → <a href="../../logic/index.html#List">List</a> (ComponentId × <a href="../../logic/index.html#ℤ">ℤ</a>) → <a href="#Bundle">Bundle</a>
/// <a href="#with_put">with_put</a> held [] = held
/// <a href="#with_put">with_put</a> held (item ∷ items) = <a href="#with_put">with_put</a> (<a href="../../logic/index.html#FinMap.put">put</a> <a href="../../ent_handle/component/index.html#component_cmp">component_cmp</a> item.0 item.1 held) items
/// </pre>
///
/// <pre>
/// -- the bundle of these components: if one occurs twice, its last value counts
/// abbrev pub <b id="bundle_of">bundle_of</b> : <a href="../../logic/index.html#List">List</a> (ComponentId × <a href="../../logic/index.html#ℤ">ℤ</a>) → <a href="#Bundle">Bundle</a>
/// <a href="#bundle_of">bundle_of</a> items = <a href="#with_put">with_put</a> [] items
/// </pre>
pub mod bundle {}

#[doc(alias("Components", "missing", "with_items"))]
/// The components of one entity: a finite map from component numbers to values.
///
/// <pre>
/// -- the value of each component that an entity has
/// abbrev pub <b id="Components">Components</b> : Type 0
/// <a href="#Components">Components</a> = <a href="../../logic/index.html#FinMap.FinMap">map.FinMap</a> <a href="../../ent_handle/component/index.html#component_cmp">component_cmp</a> <a href="../../logic/index.html#ℤ">ℤ</a>
/// </pre>
///
/// <pre>
/// -- the components after each item was set, the first item first
/// abbrev pub <b id="with_items">with_items</b> : <a href="#Components">Components</a> → <a href="../../logic/index.html#List">List</a> (ComponentId × <a href="../../logic/index.html#ℤ">ℤ</a>) → <a href="#Components">Components</a>
/// <a href="#with_items">with_items</a> held [] = held
/// <a href="#with_items">with_items</a> held (item ∷ items) = <a href="#with_items">with_items</a> (<a href="../../logic/index.html#FinMap.insert">map.insert</a> held item.0 item.1) items
/// </pre>
///
/// <pre>
/// -- how many of the items set a component that is not there
/// abbrev pub <b id="missing">missing</b> : <a href="#Components">Components</a> → <a href="../../logic/index.html#List">List</a> (ComponentId × <a href="../../logic/index.html#ℤ">ℤ</a>) → <a href="../../logic/index.html#ℕ">ℕ</a>
/// <a href="#missing">missing</a> held items = count_by (λ item. is_none (<a href="../../logic/index.html#FinMap.get">map.get</a> held item.0)) items
/// </pre>
pub mod components {}

#[doc(alias("AreBare", "Entity", "EntityMap", "Store", "birth_of", "components_of", "newborn", "value_at_place", "value_of", "with_components"))]
/// The living entities: a finite map from handles to births and components.
///
/// <pre>
/// -- when an entity was brought to life, and the components that it has
/// pub record <b id="Entity">Entity</b> : Type 0 where
///   pub birth : Birth
///   pub components : <a href="../components/index.html#Components">Components</a>
/// </pre>
///
/// <pre>
/// -- each living entity, under its handle
/// abbrev pub <b id="EntityMap">EntityMap</b> : Type 0
/// <a href="#EntityMap">EntityMap</a> = <a href="../../logic/index.html#FinMap.FinMap">map.FinMap</a> <a href="../../ent_handle/handle/index.html#handle_cmp">handle_cmp</a> <a href="#Entity">Entity</a>
/// </pre>
///
/// <pre>
/// -- an entity as it is born: without components
/// abbrev pub <b id="newborn">newborn</b> : Birth → <a href="#Entity">Entity</a>
/// <a href="#newborn">newborn</a> birth = record { birth = birth; components = <a href="../../logic/index.html#FinMap.empty">map.empty</a> }
/// </pre>
///
/// <pre>
/// -- the birth of the entity, if it is there
/// abbrev pub <b id="birth_of">birth_of</b> : <a href="#EntityMap">EntityMap</a> → <a href="../../ent_handle/handle/index.html#Handle">Handle</a> → <a href="../../logic/index.html#Option">Option</a> Birth
/// <a href="#birth_of">birth_of</a> m h = <a href="../../logic/index.html#option_map">option_map</a> (λ e. e.birth) (<a href="../../logic/index.html#FinMap.get">map.get</a> m h)
/// </pre>
///
/// <pre>
/// -- its components
/// abbrev pub <b id="components_of">components_of</b> : <a href="#EntityMap">EntityMap</a> → <a href="../../ent_handle/handle/index.html#Handle">Handle</a> → <a href="../../logic/index.html#Option">Option</a> <a href="../components/index.html#Components">Components</a>
/// <a href="#components_of">components_of</a> m h = <a href="../../logic/index.html#option_map">option_map</a> (λ e. e.components) (<a href="../../logic/index.html#FinMap.get">map.get</a> m h)
/// </pre>
///
/// <pre>
/// -- the value of one component, if the entity is there and has it
/// abbrev pub <b id="value_of">value_of</b> : <a href="#EntityMap">EntityMap</a> → <a href="../../ent_handle/handle/index.html#Handle">Handle</a> → ComponentId → <a href="../../logic/index.html#Option">Option</a> <a href="../../logic/index.html#ℤ">ℤ</a>
/// <a href="#value_of">value_of</a> m h id = option_and_then (λ e. <a href="../../logic/index.html#FinMap.get">map.get</a> e.components id) (<a href="../../logic/index.html#FinMap.get">map.get</a> m h)
/// </pre>
///
/// <pre>
/// -- no entity has any component
/// abbrev pub <b id="AreBare">AreBare</b> : <a href="#EntityMap">EntityMap</a> → Type 0
/// <a href="#AreBare">AreBare</a> m = (h : <a href="../../ent_handle/handle/index.html#Handle">Handle</a>) (e : <a href="#Entity">Entity</a>) → <a href="../../logic/index.html#FinMap.get">map.get</a> m h ≡ <a href="../../logic/index.html#Some">Some</a> e → e.components ≡ <a href="../../logic/index.html#FinMap.empty">map.empty</a>
/// </pre>
///
/// <pre>
/// -- the map after the components of one entity were changed; the same map if the entity is not there
/// abbrev pub <b id="with_components">with_components</b> : <a href="#EntityMap">EntityMap</a> → <a href="../../ent_handle/handle/index.html#Handle">Handle</a> → (<a href="../components/index.html#Components">Components</a> → <a href="../components/index.html#Components">Components</a>) → <a href="#EntityMap">EntityMap</a>
/// <a href="#with_components">with_components</a> m h change =
///     option_map_or (λ e. <a href="../../logic/index.html#FinMap.insert">map.insert</a> m h (record e { components = change e.components }))
///     (<a href="../../logic/index.html#FinMap.get">map.get</a> m h) m
/// </pre>
///
/// <pre>
/// -- what contracts see of a storage: its entities, the handle at each place, and for how many more
/// -- it has room
/// pub record <b id="Store">Store</b> : Type 0 where
///   pub entities : <a href="#EntityMap">EntityMap</a>
///   pub places : <a href="../../logic/index.html#List">List</a> <a href="../../ent_handle/handle/index.html#Handle">Handle</a>
///   pub spare : <a href="../../logic/index.html#ℕ">ℕ</a>
/// </pre>
///
/// <pre>
/// -- the value of one component of the entity at a place, if there is an entity and has it
/// abbrev pub <b id="value_at_place">value_at_place</b> : <a href="#Store">Store</a> → <a href="../../logic/index.html#ℕ">ℕ</a> → ComponentId → <a href="../../logic/index.html#Option">Option</a> <a href="../../logic/index.html#ℤ">ℤ</a>
/// <a href="#value_at_place">value_at_place</a> s place id =
///     option_and_then (λ h. <a href="#value_of">value_of</a> s.entities h id) (<a href="../../logic/index.html#slice_get">slice_get</a> s.places place)
/// </pre>
pub mod entity_map {}

#[doc(alias("ListsAll", "ListsByBirth", "ListsWith"))]
/// Lists of handles in the order of births.
///
/// <pre>
/// -- entities by birth, then by handle
/// abbrev pub <b id="birth_order">birth_order</b> : <a href="../entity_map/index.html#EntityMap">EntityMap</a> → <a href="../../ent_handle/handle/index.html#Handle">Handle</a> → <a href="../../ent_handle/handle/index.html#Handle">Handle</a> → Ordering
/// <a href="#birth_order">birth_order</a> m = then_cmp (on (<a href="../entity_map/index.html#birth_of">birth_of</a> m) (option_cmp <a href="../../ent_handle/birth/index.html#birth_cmp">birth_cmp</a>)) <a href="../../ent_handle/handle/index.html#handle_cmp">handle_cmp</a>
/// </pre>
///
/// <pre>
/// -- the list has the handles of the entities that pass and no others, each once, in the order of
/// -- births
/// pub record <b id="ListsByBirth">ListsByBirth</b> (passes : <a href="../entity_map/index.html#Entity">Entity</a> → <a href="../../logic/index.html#Bool">Bool</a>) (m : <a href="../entity_map/index.html#EntityMap">EntityMap</a>) (handles : <a href="../../logic/index.html#List">List</a> <a href="../../ent_handle/handle/index.html#Handle">Handle</a>)
///     : Type 0 where
///   pub rising : <a href="../../logic/index.html#AllPairs">AllPairs</a> (λ a b. <a href="#birth_order">birth_order</a> m a b ≡ Less) handles
///   pub holds : (h : <a href="../../ent_handle/handle/index.html#Handle">Handle</a>) → <a href="../../logic/index.html#Contains">Contains</a> handles h
///       ↔ IsSomeAnd (<a href="../../logic/index.html#FinMap.get">finite.get</a> m h) (λ e. <a href="../../logic/index.html#IsTrue">IsTrue</a> (passes e))
/// </pre>
///
/// <pre>
/// -- all entities
/// abbrev pub <b id="ListsAll">ListsAll</b> : <a href="../entity_map/index.html#EntityMap">EntityMap</a> → <a href="../../logic/index.html#List">List</a> <a href="../../ent_handle/handle/index.html#Handle">Handle</a> → Type 0
/// <a href="#ListsAll">ListsAll</a> = <a href="#ListsByBirth">ListsByBirth</a> (λ _. <a href="../../logic/index.html#true">true</a>)
/// </pre>
///
/// <pre>
/// -- the entities that have the component
/// abbrev pub <b id="ListsWith">ListsWith</b> : ComponentId → <a href="../entity_map/index.html#EntityMap">EntityMap</a> → <a href="../../logic/index.html#List">List</a> <a href="../../ent_handle/handle/index.html#Handle">Handle</a> → Type 0
/// <a href="#ListsWith">ListsWith</a> id = <a href="#ListsByBirth">ListsByBirth</a> (λ e. <a href="../../logic/index.html#FinMap.contains_key">finite.contains_key</a> e.components id)
/// </pre>
pub mod birth_order {}

#[doc(alias("AreWithout"))]
/// The places of entities: the position of each in the vectors of a storage.
///
/// <pre>
/// -- the handles at the places after one was taken out: the last one has moved into its place
/// pub record <b id="AreWithout">AreWithout</b> (place : <a href="../../logic/index.html#ℕ">ℕ</a>) (old new : <a href="../../logic/index.html#List">List</a> <a href="../../ent_handle/handle/index.html#Handle">Handle</a>) : Type 0 where
///   pub one_less : <a href="../../logic/index.html#length">length</a> new + 1 ≡ <a href="../../logic/index.html#length">length</a> old
///   pub moved : place + 1 &lt; <a href="../../logic/index.html#length">length</a> old → <a href="../../logic/index.html#slice_get">slice_get</a> new place ≡ <a href="../../logic/index.html#slice_get">slice_get</a> old (<a href="../../logic/index.html#length">length</a> old - 1)
///   pub others : (k : <a href="../../logic/index.html#ℕ">ℕ</a>) → k ≢ place → k + 1 &lt; <a href="../../logic/index.html#length">length</a> old → <a href="../../logic/index.html#slice_get">slice_get</a> new k ≡ <a href="../../logic/index.html#slice_get">slice_get</a> old k
/// </pre>
pub mod places {}

#[doc(alias("HandleMap", "HandleValues", "HasLater", "IsBeyond", "error_of", "no_limit", "placeholder", "same_handle", "with_written", "without_slot"))]
/// What contracts see of a map from handles.
///
/// <pre>
/// -- a value for each of some handles
/// abbrev pub <b id="HandleValues">HandleValues</b> : Type 0 → Type 0
/// <a href="#HandleValues">HandleValues</a> T = <a href="../../logic/index.html#FinMap.FinMap">map.FinMap</a> <a href="../../ent_handle/handle/index.html#handle_cmp">handle_cmp</a> T
/// </pre>
///
/// <pre>
/// -- the values, how many slots there are, for how many there is room, and how many may have values
/// pub record <b id="HandleMap">HandleMap</b> (T : Type 0) : Type 0 where
///   pub values : <a href="#HandleValues">HandleValues</a> T
///   pub slots : <a href="../../logic/index.html#ℕ">ℕ</a>
///   pub room : <a href="../../logic/index.html#ℕ">ℕ</a>
///   pub limit : <a href="../../logic/index.html#ℕ">ℕ</a>
/// </pre>
///
/// <pre>
/// -- the limit of a map that has none: the greatest number of slots
/// abbrev pub <b id="no_limit">no_limit</b> : <a href="../../logic/index.html#ℕ">ℕ</a>
/// <a href="#no_limit">no_limit</a> = 2 ^ 32 - 1
/// </pre>
///
/// <pre>
/// -- the last handle, which no map takes
/// abbrev pub <b id="placeholder">placeholder</b> : <a href="../../ent_handle/handle/index.html#Handle">Handle</a>
/// <a href="#placeholder">placeholder</a> = record { index = 2 ^ 32 - 2; generation = 2 ^ 31 - 1 }
/// </pre>
///
/// <pre>
/// -- a map with the limit takes no value for the handle
/// abbrev pub <b id="IsBeyond">IsBeyond</b> : <a href="../../logic/index.html#ℕ">ℕ</a> → <a href="../../ent_handle/handle/index.html#Handle">Handle</a> → Type 0
/// <a href="#IsBeyond">IsBeyond</a> limit h = (limit ≤ h.index) ⊎ (h ≡ <a href="#placeholder">placeholder</a>)
/// </pre>
///
/// <pre>
/// -- a handle is equal to itself
/// pub <b id="same_handle">same_handle</b> : (h : <a href="../../ent_handle/handle/index.html#Handle">Handle</a>) → eq_by_cmp <a href="../../ent_handle/handle/index.html#handle_cmp">handle_cmp</a> h h ≡ <a href="../../logic/index.html#true">true</a>
/// <a href="#same_handle">same_handle</a> h = (eq_by_cmp_equiv <a href="../../ent_handle/handle/index.html#handle_cmp_total">handle_cmp_total</a>).refl h
/// </pre>
///
/// <pre>
/// module _ {T : Type 0} where
///   -- the values without that of the slot
///   abbrev pub <b id="without_slot">without_slot</b> : <a href="#HandleValues">HandleValues</a> T → <a href="../../logic/index.html#ℕ">ℕ</a> → <a href="#HandleValues">HandleValues</a> T
///   <a href="#without_slot">without_slot</a> m index = map.retain_keys m (λ h. not (h.index == index))
/// </pre>
///
/// <pre>
///   -- a later occupant of the handle's slot has a value
///   abbrev pub <b id="HasLater">HasLater</b> : <a href="#HandleValues">HandleValues</a> T → <a href="../../ent_handle/handle/index.html#Handle">Handle</a> → Type 0
///   <a href="#HasLater">HasLater</a> m h = (generation : <a href="../../logic/index.html#ℕ">ℕ</a>) × (h.generation &lt; generation)
///       × <a href="../../logic/index.html#IsSome">IsSome</a> (<a href="../../logic/index.html#FinMap.get">map.get</a> m (record { index = h.index; generation = generation }))
/// </pre>
///
/// <pre>
///   -- the map after a write to the value of a handle
///   abbrev pub <b id="with_written">with_written</b> : <a href="#HandleMap">HandleMap</a> T → <a href="../../ent_handle/handle/index.html#Handle">Handle</a> → T → <a href="#HandleMap">HandleMap</a> T
///   <a href="#with_written">with_written</a> m h value = record m { values = <a href="../../logic/index.html#FinMap.insert">map.insert</a> m.values h value }
///
///   -- a handle that was given a value has one
///   pub some_written : (m : <a href="#HandleMap">HandleMap</a> T) (h : <a href="../../ent_handle/handle/index.html#Handle">Handle</a>) (value : T)
///       → <a href="../../logic/index.html#IsSome">IsSome</a> (<a href="../../logic/index.html#FinMap.get">map.get</a> (<a href="#with_written">with_written</a> m h value).values h)
///   some_written m h value =
///       ap <a href="../../logic/index.html#is_some">is_some</a> (<a href="../../logic/index.html#FinMap.get">map.get</a>-insert <a href="../../ent_handle/handle/index.html#handle_cmp_total">handle_cmp_total</a> m.values h value h
///       ∙ ap (λ same. cond same (<a href="../../logic/index.html#Some">Some</a> value) (<a href="../../logic/index.html#FinMap.get">map.get</a> m.values h)) (<a href="#same_handle">same_handle</a> h))
/// </pre>
///
/// <pre>
///   -- why a value was not inserted
///   abbrev pub <b id="error_of">error_of</b> : {A : Type 0} → <a href="../../logic/index.html#Result">Result</a> A (<a href="../../ent_handle/handed_back/index.html#HandedBack">HandedBack</a> T InsertError) → <a href="../../logic/index.html#Option">Option</a> InsertError
///   <a href="#error_of">error_of</a> (<a href="../../logic/index.html#Ok">Ok</a> _) = <a href="../../logic/index.html#None">None</a>
///   <a href="#error_of">error_of</a> (<a href="../../logic/index.html#Err">Err</a> refused) = <a href="../../logic/index.html#Some">Some</a> refused.error
/// </pre>
pub mod handle_map {}

#[doc(alias("lends_get"))]
/// What a map ends as, where a `&mut` to one of its values is returned.
///
/// <pre>
/// module _ (T : RattleType) (m : MutBor (<a href="../handle_map/index.html#HandleMap">HandleMap</a> T.Denot)) (h : <a href="../../ent_handle/handle/index.html#Handle">Handle</a>) where
/// </pre>
///
/// <pre>
///   -- the same where r is a reference, and at `None` the map stays as it is
///   abbrev pub <b id="lends_get">lends_get</b> : <a href="../../logic/index.html#Option">Option</a> (MutBor T.Denot) → Fml
///   <a href="#lends_get">lends_get</a> r = LendsIf (the_row T) T m r (<a href="../handle_map/index.html#with_written">with_written</a> m.now h) m.now
/// </pre>
pub mod lends {}

#[doc(alias("Gives", "IsFilled", "IsRefusal", "IsWritten", "entry_handle", "entry_lends", "entry_map", "entry_ref", "entry_value", "lends_in", "occupied_lends", "with_value"))]
/// What contracts see of an entry: what a map has for one handle.
///
/// <pre>
/// -- the variants of the type in Rust
/// <b id="Occupied">Occupied</b>, <b id="Vacant">Vacant</b>
/// </pre>
///
/// <pre>
/// module _ {T : Type 0} where
///   -- the reference to the map
///   abbrev pub <b id="entry_ref">entry_ref</b> : Entry T → MutBor (<a href="../handle_map/index.html#HandleMap">HandleMap</a> T)
///   <a href="#entry_ref">entry_ref</a> (Occupied o) = o.map
///   <a href="#entry_ref">entry_ref</a> (Vacant v) = v.map
/// </pre>
///
/// <pre>
///   -- the map
///   abbrev pub <b id="entry_map">entry_map</b> : Entry T → <a href="../handle_map/index.html#HandleMap">HandleMap</a> T
///   <a href="#entry_map">entry_map</a> e = (<a href="#entry_ref">entry_ref</a> e).now
/// </pre>
///
/// <pre>
///   -- the handle
///   abbrev pub <b id="entry_handle">entry_handle</b> : Entry T → <a href="../../ent_handle/handle/index.html#Handle">Handle</a>
///   <a href="#entry_handle">entry_handle</a> (Occupied o) = o.handle
///   <a href="#entry_handle">entry_handle</a> (Vacant v) = v.handle
/// </pre>
///
/// <pre>
///   -- the value that the handle has
///   abbrev pub <b id="entry_value">entry_value</b> : Entry T → <a href="../../logic/index.html#Option">Option</a> T
///   <a href="#entry_value">entry_value</a> (Occupied o) = <a href="../../logic/index.html#FinMap.get">map.get</a> o.map.now.values o.handle
///   <a href="#entry_value">entry_value</a> (Vacant v) = <a href="../../logic/index.html#None">None</a>
/// </pre>
///
/// <pre>
///   -- the second map is the first one, once a handle without a value has this one
///   pub record <b id="IsFilled">IsFilled</b> (old : <a href="../handle_map/index.html#HandleMap">HandleMap</a> T) (h : <a href="../../ent_handle/handle/index.html#Handle">Handle</a>) (value : T) (new : <a href="../handle_map/index.html#HandleMap">HandleMap</a> T) :
///       Type 0 where
///     pub values : new.values ≡ <a href="../../logic/index.html#FinMap.insert">map.insert</a> (<a href="../handle_map/index.html#without_slot">without_slot</a> old.values h.index) h value
///     pub slots : new.slots ≡ <a href="../../logic/index.html#max">max</a> old.slots (h.index + 1)
///     pub room : old.room ≤ new.room
///     pub limit : new.limit ≡ old.limit
/// </pre>
///
/// <pre>
///   -- the map is as the entry's, once its handle has the value
///   abbrev pub <b id="Gives">Gives</b> : Entry T → T → <a href="../handle_map/index.html#HandleMap">HandleMap</a> T → Type 0
///   <a href="#Gives">Gives</a> (Occupied o) value new = new ≡ <a href="../handle_map/index.html#with_written">with_written</a> o.map.now o.handle value
///   <a href="#Gives">Gives</a> (Vacant v) value new = <a href="#IsFilled">IsFilled</a> v.map.now v.handle value new
/// </pre>
///
/// <pre>
///   -- why the map refuses a value for the handle, if it does
///   pub record <b id="IsRefusal">IsRefusal</b> (m : <a href="../handle_map/index.html#HandleMap">HandleMap</a> T) (h : <a href="../../ent_handle/handle/index.html#Handle">Handle</a>) (error : <a href="../../logic/index.html#Option">Option</a> why.InsertError) :
///       Type 0 where
///     pub limit : (error ≡ <a href="../../logic/index.html#Some">Some</a> why.TheVariants.Limit) ↔ <a href="../handle_map/index.html#IsBeyond">IsBeyond</a> m.limit h
///     pub later : (error ≡ <a href="../../logic/index.html#Some">Some</a> why.TheVariants.Later)
///         ↔ (¬ (<a href="../handle_map/index.html#IsBeyond">IsBeyond</a> m.limit h) × <a href="../handle_map/index.html#HasLater">HasLater</a> m.values h)
///     pub memory : error ≡ <a href="../../logic/index.html#Some">Some</a> why.TheVariants.Memory → m.room ≤ h.index
/// </pre>
///
/// <pre>
///   -- the occupied entry, once it has the value
///   abbrev pub <b id="with_value">with_value</b> : OccupiedEntry T → T → OccupiedEntry T
///   <a href="#with_value">with_value</a> o value = record {
///     map = record o.map { now = <a href="../handle_map/index.html#with_written">with_written</a> o.map.now o.handle value };
///     handle = o.handle;
///     present = some_written o.map.now o.handle value;
///   }
/// </pre>
///
/// <pre>
///   -- the second entry is the first one, once its handle has the value
///   pub record <b id="IsWritten">IsWritten</b> (old : OccupiedEntry T) (value : T) (new : OccupiedEntry T) : Type 0 where
///     pub same_map : new.map.ghost_name ≡ old.map.ghost_name
///     pub map : new.map.now ≡ <a href="../handle_map/index.html#with_written">with_written</a> old.map.now old.handle value
///     pub handle : new.handle ≡ old.handle
///     pub written : <a href="#entry_value">entry_value</a> (Occupied new) ≡ <a href="../../logic/index.html#Some">Some</a> value
/// </pre>
///
/// <pre>
/// module _ (T : RattleType) where
///   -- once the borrow r ends, the handle has the last value written through r
///   abbrev pub <b id="occupied_lends">occupied_lends</b> : OccupiedEntry T.Denot → MutBor T.Denot → Fml
///   <a href="#occupied_lends">occupied_lends</a> o r =
///       follows (the_row T) T o.map.ghost_name r.ghost_name (<a href="../handle_map/index.html#with_written">with_written</a> o.map.now o.handle)
/// </pre>
///
/// <pre>
///   -- the same of the entry behind o, of which the lifetime is the second of the signature
///   abbrev pub <b id="lends_in">lends_in</b> : MutBor (OccupiedEntry T.Denot) → MutBor T.Denot → Fml
///   <a href="#lends_in">lends_in</a> o r =
///       follows (occupied.the_row (record { mir = named 1; lft = [] }) T) T o.ghost_name r.ghost_name
///       (<a href="#with_value">with_value</a> o.now)
/// </pre>
///
/// <pre>
///   -- once the borrow ends, the handle has the last value written through it, and after an error
///   -- nothing has changed
///   abbrev pub <b id="entry_lends">entry_lends</b> : Entry T.Denot
///       → <a href="../../logic/index.html#Result">Result</a> (MutBor T.Denot) (<a href="../../ent_handle/handed_back/index.html#HandedBack">HandedBack</a> T.Denot why.InsertError) → Fml
///   <a href="#entry_lends">entry_lends</a> e r = LendsSoOk (the_row T) T (<a href="#entry_ref">entry_ref</a> e) r (λ new value. <a href="#Gives">Gives</a> e value new)
///       (λ new. new ≡ <a href="#entry_map">entry_map</a> e)
/// </pre>
pub mod entry {}

#[doc(alias("CalledAt", "Retains"))]
/// What a closure leaves of the values that it is called at.
///
/// <pre>
/// module _ {T F : Type 0} (step : F → <a href="../../ent_handle/handle/index.html#Handle">Handle</a> → MutBor T → <a href="../../logic/index.html#Bool">Bool</a> → MutBor T → F → Type 0) where
///   -- a call of f at this handle and value may return `keep`, and leave this value and closure
///   pub record <b id="CalledAt">CalledAt</b> (f : F) (h : <a href="../../ent_handle/handle/index.html#Handle">Handle</a>) (old : T) (keep : <a href="../../logic/index.html#Bool">Bool</a>) (new : T) (next : F)
///       : Type 0 where
///     pub shown : MutBor T
///     pub shows : shown.now ≡ old
///     pub left : MutBor T
///     pub called : step f h shown keep left next
///     pub leaves : left.now ≡ new
/// </pre>
///
/// <pre>
///   -- f was called at each entry in turn, and the second list has those at which it returned `true`,
///   -- with the values that it left there
///   abbrev pub <b id="Retains">Retains</b> : F → <a href="../../logic/index.html#List">List</a> (<a href="../../ent_handle/handle/index.html#Handle">Handle</a> × T) → <a href="../../logic/index.html#List">List</a> (<a href="../../ent_handle/handle/index.html#Handle">Handle</a> × T) → Type 0
///   <a href="#Retains">Retains</a> = RetainsPairs <a href="#CalledAt">CalledAt</a>
/// </pre>
pub mod retained {}

#[doc(alias("AreStored", "IsBirth", "IsStored", "birth_bytes", "component", "entities_bytes", "entity_bytes", "is_held", "value_bytes", "values_bytes", "width", "width_below"))]
/// The bytes of entities: what the image of a world has of its living ones.
///
/// <pre>
/// abbrev pub <b id="birth_bytes">birth_bytes</b> : Birth → <a href="../../logic/index.html#List">List</a> <a href="../../logic/index.html#ℕ">ℕ</a>
/// <a href="#birth_bytes">birth_bytes</a> b = <a href="../../ent_handle/bytes/index.html#long">long</a> b.frame ++ (<a href="../../ent_handle/bytes/index.html#word">word</a> b.system ++ <a href="../../ent_handle/bytes/index.html#word">word</a> b.ordinal)
/// </pre>
///
/// <pre>
/// -- a value in two's complement after a 1, or a 0 if there is none
/// abbrev pub <b id="value_bytes">value_bytes</b> : <a href="../../logic/index.html#Option">Option</a> <a href="../../logic/index.html#ℤ">ℤ</a> → <a href="../../logic/index.html#List">List</a> <a href="../../logic/index.html#ℕ">ℕ</a>
/// <a href="#value_bytes">value_bytes</a> <a href="../../logic/index.html#None">None</a> = 0 ∷ []
/// <a href="#value_bytes">value_bytes</a> (<a href="../../logic/index.html#Some">Some</a> v) = 1 ∷ <a href="../../ent_handle/bytes/index.html#long">long</a> (cast_unsigned w64 v)
/// </pre>
///
/// <pre>
/// -- the component of a number
/// abbrev pub <b id="component">component</b> : <a href="../../logic/index.html#ℕ">ℕ</a> → ComponentId
/// <a href="#component">component</a> number = record { 0 = number }
/// </pre>
///
/// <pre>
/// -- the values of the first components, in ascending order of number
/// abbrev pub <b id="values_bytes">values_bytes</b> : (ComponentId → <a href="../../logic/index.html#Option">Option</a> <a href="../../logic/index.html#ℤ">ℤ</a>) → <a href="../../logic/index.html#ℕ">ℕ</a> → <a href="../../logic/index.html#List">List</a> <a href="../../logic/index.html#ℕ">ℕ</a>
/// <a href="#values_bytes">values_bytes</a> value width =
///     flat_map (λ number. <a href="#value_bytes">value_bytes</a> (value (<a href="#component">component</a> number))) (range_with_len 0 width)
/// </pre>
///
/// <pre>
/// -- the birth of the entity, and the values of its first components
/// unfoldable pub <b id="entity_bytes">entity_bytes</b> : <a href="../../logic/index.html#ℕ">ℕ</a> → <a href="../entity_map/index.html#EntityMap">EntityMap</a> → <a href="../../ent_handle/handle/index.html#Handle">Handle</a> → <a href="../../logic/index.html#List">List</a> <a href="../../logic/index.html#ℕ">ℕ</a>
/// <a href="#entity_bytes">entity_bytes</a> width m h =
///     option_map_or <a href="#birth_bytes">birth_bytes</a> (<a href="../entity_map/index.html#birth_of">birth_of</a> m h) [] ++ <a href="#values_bytes">values_bytes</a> (<a href="../entity_map/index.html#value_of">value_of</a> m h) width
/// </pre>
///
/// <pre>
/// -- one of the entities has the component
/// abbrev pub <b id="is_held">is_held</b> : <a href="../entity_map/index.html#EntityMap">EntityMap</a> → <a href="../../logic/index.html#List">List</a> <a href="../../ent_handle/handle/index.html#Handle">Handle</a> → <a href="../../logic/index.html#ℕ">ℕ</a> → <a href="../../logic/index.html#Bool">Bool</a>
/// <a href="#is_held">is_held</a> m handles number = list_any (λ h. <a href="../../logic/index.html#is_some">is_some</a> (<a href="../entity_map/index.html#value_of">value_of</a> m h (<a href="#component">component</a> number))) handles
/// </pre>
///
/// <pre>
/// -- How many components there are up to the last one that any of the entities has, if none has one
/// -- past these.
/// abbrev pub <b id="width_below">width_below</b> : <a href="../entity_map/index.html#EntityMap">EntityMap</a> → <a href="../../logic/index.html#List">List</a> <a href="../../ent_handle/handle/index.html#Handle">Handle</a> → <a href="../../logic/index.html#ℕ">ℕ</a> → <a href="../../logic/index.html#ℕ">ℕ</a>
/// <a href="#width_below">width_below</a> m handles zero = 0
/// <a href="#width_below">width_below</a> m handles (suc number) =
///     if <a href="#is_held">is_held</a> m handles number then suc number else <a href="#width_below">width_below</a> m handles number
/// </pre>
///
/// <pre>
/// unfoldable pub <b id="width">width</b> : <a href="../entity_map/index.html#EntityMap">EntityMap</a> → <a href="../../logic/index.html#List">List</a> <a href="../../ent_handle/handle/index.html#Handle">Handle</a> → <a href="../../logic/index.html#ℕ">ℕ</a>
/// <a href="#width">width</a> m handles = <a href="#width_below">width_below</a> m handles 256
/// </pre>
///
/// <pre>
/// -- how many components have a byte in each entity, and the entities in the order of the handles
/// abbrev pub <b id="entities_bytes">entities_bytes</b> : <a href="../entity_map/index.html#EntityMap">EntityMap</a> → <a href="../../logic/index.html#List">List</a> <a href="../../ent_handle/handle/index.html#Handle">Handle</a> → <a href="../../logic/index.html#List">List</a> <a href="../../logic/index.html#ℕ">ℕ</a>
/// <a href="#entities_bytes">entities_bytes</a> m handles =
///     <a href="../../ent_handle/bytes/index.html#word">word</a> (<a href="#width">width</a> m handles) ++ flat_map (<a href="#entity_bytes">entity_bytes</a> (<a href="#width">width</a> m handles) m) handles
/// </pre>
///
/// <pre>
/// -- the numbers of a birth fit
/// pub record <b id="IsBirth">IsBirth</b> (b : Birth) : Type 0 where
///   pub frame : b.frame &lt; 2 ^ 64
///   pub system : b.system &lt; 2 ^ 32
///   pub ordinal : b.ordinal &lt; 2 ^ 32
/// </pre>
///
/// <pre>
/// -- The entity is there, and its numbers fit, as those of each entity of a storage do.
/// pub record <b id="IsStored">IsStored</b> (m : <a href="../entity_map/index.html#EntityMap">EntityMap</a>) (h : <a href="../../ent_handle/handle/index.html#Handle">Handle</a>) : Type 0 where
///   pub birth : IsSomeAnd (<a href="../entity_map/index.html#birth_of">birth_of</a> m h) <a href="#IsBirth">IsBirth</a>
///   pub numbered : (id : ComponentId) (v : <a href="../../logic/index.html#ℤ">ℤ</a>) → <a href="../entity_map/index.html#value_of">value_of</a> m h id ≡ <a href="../../logic/index.html#Some">Some</a> v → id.0 &lt; 256
///   pub values : (id : ComponentId) (v : <a href="../../logic/index.html#ℤ">ℤ</a>) → <a href="../entity_map/index.html#value_of">value_of</a> m h id ≡ <a href="../../logic/index.html#Some">Some</a> v → FitsSigned w64 v
/// </pre>
///
/// <pre>
/// -- the map has these entities and no others
/// pub record <b id="AreStored">AreStored</b> (m : <a href="../entity_map/index.html#EntityMap">EntityMap</a>) (handles : <a href="../../logic/index.html#List">List</a> <a href="../../ent_handle/handle/index.html#Handle">Handle</a>) : Type 0 where
///   pub each : (h : <a href="../../ent_handle/handle/index.html#Handle">Handle</a>) → <a href="../../logic/index.html#Contains">Contains</a> handles h → <a href="#IsStored">IsStored</a> m h
///   pub only : (h : <a href="../../ent_handle/handle/index.html#Handle">Handle</a>) → <a href="../../logic/index.html#IsTrue">IsTrue</a> (<a href="../../logic/index.html#FinMap.contains_key">map.contains_key</a> m h) → <a href="../../logic/index.html#Contains">Contains</a> handles h
/// </pre>
pub mod image {}

#[doc(alias("AreCloned", "AreEntries", "HasNone", "IsClonedOption", "IsFullFor", "SparseMap", "values_of", "with_written_in"))]
/// What contracts see of a sparse map, and the two vectors that represent it.
///
/// <pre>
/// -- the values, for how many values there is room, for how many slots, and how many may have values
/// pub record <b id="SparseMap">SparseMap</b> (T : Type 0) : Type 0 where
///   pub values : <a href="../handle_map/index.html#HandleValues">HandleValues</a> T
///   pub room : <a href="../../logic/index.html#ℕ">ℕ</a>
///   pub slots : <a href="../../logic/index.html#ℕ">ℕ</a>
///   pub limit : <a href="../../logic/index.html#ℕ">ℕ</a>
/// </pre>
///
/// <pre>
/// module _ {T : Type 0} where
///   -- the values of a list of handles and values
///   abbrev pub <b id="values_of">values_of</b> : <a href="../../logic/index.html#List">List</a> (<a href="../../ent_handle/handle/index.html#Handle">Handle</a> × T) → <a href="../handle_map/index.html#HandleValues">HandleValues</a> T
///   <a href="#values_of">values_of</a> entries = map.from_entries {R = <a href="../../ent_handle/handle/index.html#handle_cmp">handle_cmp</a>} entries
/// </pre>
///
/// <pre>
///   -- The list has each value of the map once, in some order.
///   pub record <b id="AreEntries">AreEntries</b> (values : <a href="../handle_map/index.html#HandleValues">HandleValues</a> T) (entries : <a href="../../logic/index.html#List">List</a> (<a href="../../ent_handle/handle/index.html#Handle">Handle</a> × T)) : Type 0 where
///     pub same : <a href="#values_of">values_of</a> entries ≡ values
///     pub once : <a href="../../logic/index.html#length">length</a> entries ≡ <a href="../../logic/index.html#FinMap.len">map.len</a> values
/// </pre>
///
/// <pre>
///   -- there is no room for the value of a slot, or for one value more
///   abbrev pub <b id="IsFullFor">IsFullFor</b> : <a href="#SparseMap">SparseMap</a> T → <a href="../../logic/index.html#ℕ">ℕ</a> → Type 0
///   <a href="#IsFullFor">IsFullFor</a> m index = (m.slots ≤ index) ⊎ (m.room ≤ <a href="../../logic/index.html#FinMap.len">map.len</a> m.values)
/// </pre>
///
/// <pre>
///   -- no occupant of the slot has a value
///   abbrev pub <b id="HasNone">HasNone</b> : <a href="../handle_map/index.html#HandleValues">HandleValues</a> T → <a href="../../logic/index.html#ℕ">ℕ</a> → Type 0
///   <a href="#HasNone">HasNone</a> m index = (h : <a href="../../ent_handle/handle/index.html#Handle">Handle</a>) → h.index ≡ index → <a href="../../logic/index.html#FinMap.get">map.get</a> m h ≡ <a href="../../logic/index.html#None">None</a>
/// </pre>
///
/// <pre>
///   -- the map after a write to the value of a handle
///   abbrev pub <b id="with_written_in">with_written_in</b> : <a href="#SparseMap">SparseMap</a> T → <a href="../../ent_handle/handle/index.html#Handle">Handle</a> → T → <a href="#SparseMap">SparseMap</a> T
///   <a href="#with_written_in">with_written_in</a> m h value = record m { values = <a href="../../logic/index.html#FinMap.insert">map.insert</a> m.values h value }
///
///   -- a handle that was given a value has one
///   pub some_written : (m : <a href="#SparseMap">SparseMap</a> T) (h : <a href="../../ent_handle/handle/index.html#Handle">Handle</a>) (value : T)
///       → <a href="../../logic/index.html#IsSome">IsSome</a> (<a href="../../logic/index.html#FinMap.get">map.get</a> (<a href="#with_written_in">with_written_in</a> m h value).values h)
///   some_written m h value =
///       ap <a href="../../logic/index.html#is_some">is_some</a> (<a href="../../logic/index.html#FinMap.get">map.get</a>-insert <a href="../../ent_handle/handle/index.html#handle_cmp_total">handle_cmp_total</a> m.values h value h
///       ∙ ap (λ same. cond same (<a href="../../logic/index.html#Some">Some</a> value) (<a href="../../logic/index.html#FinMap.get">map.get</a> m.values h)) (<a href="../handle_map/index.html#same_handle">same_handle</a> h))
/// </pre>
///
/// <pre>
///   -- the second value is a clone of the first one, or there is neither
///   abbrev pub <b id="IsClonedOption">IsClonedOption</b> : (T → T → Type 0) → <a href="../../logic/index.html#Option">Option</a> T → <a href="../../logic/index.html#Option">Option</a> T → Type 0
///   <a href="#IsClonedOption">IsClonedOption</a> is_clone <a href="../../logic/index.html#None">None</a> <a href="../../logic/index.html#None">None</a> = ⊤
///   <a href="#IsClonedOption">IsClonedOption</a> is_clone <a href="../../logic/index.html#None">None</a> (<a href="../../logic/index.html#Some">Some</a> w) = ⊥
///   <a href="#IsClonedOption">IsClonedOption</a> is_clone (<a href="../../logic/index.html#Some">Some</a> v) <a href="../../logic/index.html#None">None</a> = ⊥
///   <a href="#IsClonedOption">IsClonedOption</a> is_clone (<a href="../../logic/index.html#Some">Some</a> v) (<a href="../../logic/index.html#Some">Some</a> w) = is_clone v w
/// </pre>
///
/// <pre>
///   -- the second map has a clone of each value of the first one, and no other value
///   abbrev pub <b id="AreCloned">AreCloned</b> : (T → T → Type 0) → <a href="../handle_map/index.html#HandleValues">HandleValues</a> T → <a href="../handle_map/index.html#HandleValues">HandleValues</a> T → Type 0
///   <a href="#AreCloned">AreCloned</a> is_clone old new = (h : <a href="../../ent_handle/handle/index.html#Handle">Handle</a>)
///       → <a href="#IsClonedOption">IsClonedOption</a> is_clone (<a href="../../logic/index.html#FinMap.get">map.get</a> old h) (<a href="../../logic/index.html#FinMap.get">map.get</a> new h)
/// </pre>
pub mod sparse_map {}

#[doc(alias("Gives", "IsFilled", "IsRefusal", "IsRoomier", "IsWritten", "entry_handle", "entry_lends", "entry_map", "entry_ref", "entry_value", "lends_in", "occupied_lends", "with_value"))]
/// What contracts see of an entry of a sparse map: what it has for one handle.
///
/// <pre>
/// -- the variants of the type in Rust
/// <b id="Occupied">Occupied</b>, <b id="Vacant">Vacant</b>
/// </pre>
///
/// <pre>
/// module _ {T : Type 0} where
///   -- the reference to the map
///   abbrev pub <b id="entry_ref">entry_ref</b> : Entry T → MutBor (<a href="../sparse_map/index.html#SparseMap">SparseMap</a> T)
///   <a href="#entry_ref">entry_ref</a> (Occupied o) = o.map
///   <a href="#entry_ref">entry_ref</a> (Vacant v) = v.map
/// </pre>
///
/// <pre>
///   -- the map
///   abbrev pub <b id="entry_map">entry_map</b> : Entry T → <a href="../sparse_map/index.html#SparseMap">SparseMap</a> T
///   <a href="#entry_map">entry_map</a> e = (<a href="#entry_ref">entry_ref</a> e).now
/// </pre>
///
/// <pre>
///   -- the handle
///   abbrev pub <b id="entry_handle">entry_handle</b> : Entry T → <a href="../../ent_handle/handle/index.html#Handle">Handle</a>
///   <a href="#entry_handle">entry_handle</a> (Occupied o) = o.handle
///   <a href="#entry_handle">entry_handle</a> (Vacant v) = v.handle
/// </pre>
///
/// <pre>
///   -- the value that the handle has
///   abbrev pub <b id="entry_value">entry_value</b> : Entry T → <a href="../../logic/index.html#Option">Option</a> T
///   <a href="#entry_value">entry_value</a> (Occupied o) = <a href="../../logic/index.html#FinMap.get">map.get</a> o.map.now.values o.handle
///   <a href="#entry_value">entry_value</a> (Vacant v) = <a href="../../logic/index.html#None">None</a>
/// </pre>
///
/// <pre>
///   -- the second map is the first one, once a handle without a value has this one
///   pub record <b id="IsFilled">IsFilled</b> (old : <a href="../sparse_map/index.html#SparseMap">SparseMap</a> T) (h : <a href="../../ent_handle/handle/index.html#Handle">Handle</a>) (value : T) (new : <a href="../sparse_map/index.html#SparseMap">SparseMap</a> T) :
///       Type 0 where
///     pub values : new.values ≡ <a href="../../logic/index.html#FinMap.insert">map.insert</a> (<a href="../handle_map/index.html#without_slot">without_slot</a> old.values h.index) h value
///     pub slots : old.slots ≤ new.slots
///     pub room : old.room ≤ new.room
///     pub limit : new.limit ≡ old.limit
/// </pre>
///
/// <pre>
///   -- the second map has the values of the first one, and no less room
///   pub record <b id="IsRoomier">IsRoomier</b> (old new : <a href="../sparse_map/index.html#SparseMap">SparseMap</a> T) : Type 0 where
///     pub values : new.values ≡ old.values
///     pub slots : old.slots ≤ new.slots
///     pub room : old.room ≤ new.room
///     pub limit : new.limit ≡ old.limit
/// </pre>
///
/// <pre>
///   -- the map is as the entry's, once its handle has the value
///   abbrev pub <b id="Gives">Gives</b> : Entry T → T → <a href="../sparse_map/index.html#SparseMap">SparseMap</a> T → Type 0
///   <a href="#Gives">Gives</a> (Occupied o) value new = new ≡ <a href="../sparse_map/index.html#with_written_in">with_written_in</a> o.map.now o.handle value
///   <a href="#Gives">Gives</a> (Vacant v) value new = <a href="#IsFilled">IsFilled</a> v.map.now v.handle value new
/// </pre>
///
/// <pre>
///   -- why the map refuses a value for the handle, if it does
///   pub record <b id="IsRefusal">IsRefusal</b> (m : <a href="../sparse_map/index.html#SparseMap">SparseMap</a> T) (h : <a href="../../ent_handle/handle/index.html#Handle">Handle</a>) (error : <a href="../../logic/index.html#Option">Option</a> why.InsertError) :
///       Type 0 where
///     pub limit : (error ≡ <a href="../../logic/index.html#Some">Some</a> why.TheVariants.Limit) ↔ <a href="../handle_map/index.html#IsBeyond">IsBeyond</a> m.limit h
///     pub later : (error ≡ <a href="../../logic/index.html#Some">Some</a> why.TheVariants.Later)
///         ↔ (¬ (<a href="../handle_map/index.html#IsBeyond">IsBeyond</a> m.limit h) × <a href="../handle_map/index.html#HasLater">HasLater</a> m.values h)
///     pub memory : error ≡ <a href="../../logic/index.html#Some">Some</a> why.TheVariants.Memory → <a href="../sparse_map/index.html#IsFullFor">IsFullFor</a> m h.index
///     pub memory_for_a_new_slot : error ≡ <a href="../../logic/index.html#Some">Some</a> why.TheVariants.Memory → <a href="../sparse_map/index.html#HasNone">HasNone</a> m.values h.index
/// </pre>
///
/// <pre>
///   -- the occupied entry, once it has the value
///   abbrev pub <b id="with_value">with_value</b> : OccupiedEntry T → T → OccupiedEntry T
///   <a href="#with_value">with_value</a> o value = record {
///     map = record o.map { now = <a href="../sparse_map/index.html#with_written_in">with_written_in</a> o.map.now o.handle value };
///     handle = o.handle;
///     present = some_written o.map.now o.handle value;
///   }
/// </pre>
///
/// <pre>
///   -- the second entry is the first one, once its handle has the value
///   pub record <b id="IsWritten">IsWritten</b> (old : OccupiedEntry T) (value : T) (new : OccupiedEntry T) : Type 0 where
///     pub same_map : new.map.ghost_name ≡ old.map.ghost_name
///     pub map : new.map.now ≡ <a href="../sparse_map/index.html#with_written_in">with_written_in</a> old.map.now old.handle value
///     pub handle : new.handle ≡ old.handle
///     pub written : <a href="#entry_value">entry_value</a> (Occupied new) ≡ <a href="../../logic/index.html#Some">Some</a> value
/// </pre>
///
/// <pre>
/// module _ (T : RattleType) where
///   -- once the borrow r ends, the handle has the last value written through r
///   abbrev pub <b id="occupied_lends">occupied_lends</b> : OccupiedEntry T.Denot → MutBor T.Denot → Fml
///   <a href="#occupied_lends">occupied_lends</a> o r =
///       follows (the_row T) T o.map.ghost_name r.ghost_name (<a href="../sparse_map/index.html#with_written_in">with_written_in</a> o.map.now o.handle)
/// </pre>
///
/// <pre>
///   -- the same of the entry behind o, of which the lifetime is the second of the signature
///   abbrev pub <b id="lends_in">lends_in</b> : MutBor (OccupiedEntry T.Denot) → MutBor T.Denot → Fml
///   <a href="#lends_in">lends_in</a> o r =
///       follows (occupied.the_row (record { mir = named 1; lft = [] }) T) T o.ghost_name r.ghost_name
///       (<a href="#with_value">with_value</a> o.now)
/// </pre>
///
/// <pre>
///   -- once the borrow ends, the handle has the last value written through it, and after an error
///   -- there may be more room
///   abbrev pub <b id="entry_lends">entry_lends</b> : Entry T.Denot
///       → <a href="../../logic/index.html#Result">Result</a> (MutBor T.Denot) (<a href="../../ent_handle/handed_back/index.html#HandedBack">HandedBack</a> T.Denot why.InsertError) → Fml
///   <a href="#entry_lends">entry_lends</a> e r = LendsSoOk (the_row T) T (<a href="#entry_ref">entry_ref</a> e) r (λ new value. <a href="#Gives">Gives</a> e value new)
///       (λ new. <a href="#IsRoomier">IsRoomier</a> (<a href="#entry_map">entry_map</a> e) new)
/// </pre>
pub mod sparse_entry {}

#[doc(alias("lends_get"))]
/// What a sparse map ends as, where a `&mut` to one of its values is returned.
///
/// <pre>
/// module _ (T : RattleType) (m : MutBor (<a href="../sparse_map/index.html#SparseMap">SparseMap</a> T.Denot)) (h : <a href="../../ent_handle/handle/index.html#Handle">Handle</a>) where
/// </pre>
///
/// <pre>
///   -- the same where r is a reference, and at `None` the map stays as it is
///   abbrev pub <b id="lends_get">lends_get</b> : <a href="../../logic/index.html#Option">Option</a> (MutBor T.Denot) → Fml
///   <a href="#lends_get">lends_get</a> r = LendsIf (the_row T) T m r (<a href="../sparse_map/index.html#with_written_in">with_written_in</a> m.now h) m.now
/// </pre>
pub mod sparse_lends {}
