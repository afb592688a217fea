//! Prints the structs of the wrapper's module `raw` as the compiler lays them out. It makes no call, so it links without
//! the library.
use piszczalin::raw;
use std::any::type_name;
use std::mem::offset_of;

// The type of a field, without its path.
fn kind<T>() -> String {
    let name = type_name::<T>();
    let (open, rest) = name
        .strip_prefix('[')
        .map_or(("", name), |rest| ("[", rest));
    let last = rest.rsplit("::").next().unwrap_or(rest);
    format!("{open}{}", last.to_lowercase())
}

// Prints a field; the last parameter only tells its type.
fn field<S, T>(name: &str, offset: usize, _: fn(&S) -> &T) {
    println!(
        "field {name} offset {offset} size {} type {}",
        size_of::<T>(),
        kind::<T>()
    );
}

// Prints a struct and all of its fields. One that is not listed here does not compile.
macro_rules! layout {
    ($name:ident, $type:ident, $($field:ident)*) => {
        println!(
            "struct {} size {} align {}",
            stringify!($name), size_of::<raw::$type>(), align_of::<raw::$type>()
        );
        let _ = |raw::$type { $($field: _),* }: raw::$type| ();
        $(field::<raw::$type, _>(
            concat!(stringify!($name), ".", stringify!($field)),
            offset_of!(raw::$type, $field),
            |value| &value.$field,
        );)*
    };
}

fn main() {
    layout!(tasks, Tasks, count great periods reserves);
    layout!(jobs, Jobs, run over);
    layout!(ladder, Ladder, count speeds volts);
    layout!(tally, Tally, counts idle late cut);
    layout!(state, State, done tasks jobs ladder tally);
    layout!(started, Started, number state);
    layout!(told, Told, number task deadline speed);
    layout!(ticked, Ticked, number state);
    layout!(used, Used, number energy);
}
