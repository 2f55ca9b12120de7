//! Prints a shortest path, its length first: route HIER FROM TO, with nodes from 1.
//!
//!     rustc -O route.rs
use std::{env, ffi::c_void, fs, process, ptr};

#[repr(C)]
struct Handle {
    router: *mut c_void,
}

#[repr(C)]
struct RouteInfo {
    length: u64,
    nodes: usize,
}

const OK: u32 = 0;
const NO_ROOM: u32 = 4;

#[link(name = "domethyme")]
extern "C" {
    fn domethyme_open(handle: *mut Handle, bytes: *const u8, count: usize) -> u32;
    fn domethyme_close(handle: *mut Handle);
    fn domethyme_route(handle: *mut Handle, from: u32, to: u32, route: *mut RouteInfo, nodes: *mut u32, room: usize) -> u32;
    fn domethyme_text(code: u32, text: *mut u8, room: usize) -> usize;
}

/// An open handle, which is closed when it is dropped. It may go to another thread.
struct Router(Handle);

unsafe impl Send for Router {}

impl Router {
    fn open(bytes: &[u8]) -> Result<Router, u32> {
        let mut router = Router(Handle { router: ptr::null_mut() });
        match unsafe { domethyme_open(&mut router.0, bytes.as_ptr(), bytes.len()) } {
            OK => Ok(router),
            code => Err(code),
        }
    }

    fn route(&mut self, from: u32, to: u32) -> Result<(u64, Vec<u32>), u32> {
        let mut info = RouteInfo { length: 0, nodes: 0 };
        let mut nodes = Vec::new();
        loop {
            let code = unsafe { domethyme_route(&mut self.0, from, to, &mut info, nodes.as_mut_ptr(), nodes.len()) };
            match code {
                OK => {
                    nodes.truncate(info.nodes);
                    return Ok((info.length, nodes));
                }
                NO_ROOM => nodes.resize(info.nodes, 0),
                code => return Err(code),
            }
        }
    }
}

impl Drop for Router {
    fn drop(&mut self) {
        unsafe { domethyme_close(&mut self.0) }
    }
}

fn text(code: u32) -> String {
    let mut text = [0; 80];
    let count = unsafe { domethyme_text(code, text.as_mut_ptr(), text.len()) };
    String::from_utf8_lossy(&text[..count - 1]).into_owned()
}

fn main() {
    let words: Vec<String> = env::args().collect();
    let node = |word: &str| word.parse::<u32>().expect("a node") - 1;
    let bytes = fs::read(&words[1]).expect("a hierarchy file");
    let found = Router::open(&bytes).and_then(|mut router| router.route(node(&words[2]), node(&words[3])));
    match found {
        Ok((length, nodes)) => {
            let nodes: Vec<String> = nodes.iter().map(|node| (node + 1).to_string()).collect();
            println!("{length}: {}", nodes.join(" "));
        }
        Err(code) => {
            eprintln!("route: {}", text(code));
            process::exit(1);
        }
    }
}
