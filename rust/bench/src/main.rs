//! The proved library against plain Rust that does the same work and makes the same checks, in one run: least times in
//! microseconds and their ratio. All buffers are made and written to before the first time is taken.
mod dual;
mod files;
mod index;
mod lister;
mod runs;
mod timing;

fn main() {
    let library = if cfg!(target_arch = "x86_64") { "the archive of rt lib" } else { "the same crate compiled for this machine" };
    println!("{}, {library}; least times and the middle ratio of at least 41 pairs", std::env::consts::ARCH);
    let wanted: Vec<String> = std::env::args().skip(1).collect();
    let asked = |name: &str| wanted.is_empty() || wanted.iter().any(|word| word == name);
    if asked("runs") {
        runs::rows();
    }
    if asked("files") {
        files::rows();
    }
    if asked("index") {
        index::rows();
    }
    if asked("dual") {
        dual::rows();
    }
    if asked("lister") {
        lister::rows();
    }
}
