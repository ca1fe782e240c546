//! The peer of `bench http`: reads the same stream of pipelined requests by the crate `httparse`, in pieces of 4,096 bytes as they
//! come from a socket, into owned names, values and bodies. Built and run by `bench/http.py`.
use std::io::Read;
use std::time::Instant;

struct Message {
    method: String,
    target: String,
    fields: Vec<(String, Vec<u8>)>,
    body: Vec<u8>,
}

fn declared(fields: &[httparse::Header]) -> usize {
    let field = fields.iter().find(|field| field.name.eq_ignore_ascii_case("content-length"));
    field.map_or(0, |field| std::str::from_utf8(field.value).unwrap().parse().unwrap())
}

/// The message at the front of the bytes with its length, or None where it is not whole.
fn message(bytes: &[u8]) -> Option<(Message, usize)> {
    let mut room = [httparse::EMPTY_HEADER; 100];
    let mut request = httparse::Request::new(&mut room);
    let head = match request.parse(bytes).unwrap() {
        httparse::Status::Complete(length) => length,
        httparse::Status::Partial => return None,
    };
    let whole = head + declared(request.headers);
    if bytes.len() < whole {
        return None;
    }
    let fields = request.headers.iter().map(|field| (field.name.to_ascii_lowercase(), field.value.to_vec())).collect();
    let method = request.method.unwrap().to_string();
    let target = request.path.unwrap().to_string();
    Some((Message { method, target, fields, body: bytes[head..whole].to_vec() }, whole))
}

fn read_all(stream: &[u8]) -> (u64, u64) {
    let (mut messages, mut sizes) = (0, 0);
    let (mut kept, mut at): (Vec<u8>, usize) = (Vec::new(), 0);
    for piece in stream.chunks(4096) {
        kept.drain(..at);
        at = 0;
        kept.extend_from_slice(piece);
        while let Some((message, length)) = message(&kept[at..]) {
            at += length;
            messages += 1;
            sizes += message.body.len() as u64;
            assert!(!message.method.is_empty() && !message.target.is_empty() && !message.fields.is_empty());
        }
    }
    (messages, sizes)
}

fn main() {
    let turns: u32 = std::env::args().nth(1).unwrap().parse().unwrap();
    let mut stream = Vec::new();
    std::io::stdin().read_to_end(&mut stream).unwrap();
    let mut spent = 0;
    let mut counted = (0, 0);
    for _ in 0..turns {
        let start = Instant::now();
        counted = read_all(&stream);
        spent += start.elapsed().as_nanos();
    }
    println!("http {} bytes {} messages {} in bodies {} turns {} ns", stream.len(), counted.0, counted.1, turns, spent);
}
