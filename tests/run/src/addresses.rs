//! Host names with two addresses, of the server and to listen on. A machine need not have such a name, so a runtime
//! that resolves each name to two addresses is used.

use crate::doors::any_port;
use crate::frames::{FM, IM};
use daide_run::run_text;
use daide_sockets::addresses::{try_connect, try_listen};
use daide_sockets::control_listener::FolderLock;
use daide_test_support::rows::holds;
use std::alloc::{Allocator, Global};
use std::fs::{Metadata, OpenOptions};
use std::io;
use std::io::{Read, Write};
use std::net::{Net, SocketAddr, TcpListener, TcpStream};
use std::rt::{Clock, Files};
use std::test::Fail;
use std::time::Duration;

/// A runtime that resolves each name to these two addresses, whatever the port.
#[derive(Drop)]
struct Named<'a> {
    rt: &'a HostRuntime,
    addresses: [SocketAddr; 2],
}

impl Alloc for Named<'_> {
    type A = Global;

    fn alloc(&self) -> Global {
        self.rt.alloc()
    }
}

impl Clock for Named<'_> {
    fn monotonic(&self) -> io::Result<Duration> {
        self.rt.monotonic()
    }

    fn since_1970(&self) -> io::Result<Duration> {
        self.rt.since_1970()
    }
}

impl Net for Named<'_> {
    type Stream = TcpStream;

    type Listener = TcpListener;

    fn bind(&self, addr: SocketAddr) -> io::Result<TcpListener> {
        self.rt.bind(addr)
    }

    fn connect(&self, addr: SocketAddr) -> io::Result<TcpStream> {
        self.rt.connect(addr)
    }

    fn connect_timeout(&self, addr: SocketAddr, timeout: Duration) -> io::Result<TcpStream> {
        self.rt.connect_timeout(addr, timeout)
    }

    fn lookup_host(&self, _host: &str, _port: u16, found: &mut [SocketAddr]) -> io::Result<usize> {
        let count = found.len().min(2);
        found[..count].copy_from_slice(&self.addresses[..count]);
        Ok(count)
    }
}

impl Files for Named<'_> {
    type File = <HostRuntime as Files>::File;

    type Dir = <HostRuntime as Files>::Dir;

    fn open_file(&self, how: &OpenOptions, path: &str) -> io::Result<Self::File> {
        self.rt.open_file(how, path)
    }

    fn open_dir(&self, path: &str) -> io::Result<Self::Dir> {
        self.rt.open_dir(path)
    }

    fn metadata(&self, path: &str) -> io::Result<Metadata> {
        self.rt.metadata(path)
    }

    fn symlink_metadata(&self, path: &str) -> io::Result<Metadata> {
        self.rt.symlink_metadata(path)
    }

    fn copy(&self, from: &str, to: &str) -> io::Result<u64> {
        self.rt.copy(from, to)
    }

    fn rename(&self, from: &str, to: &str) -> io::Result<()> {
        self.rt.rename(from, to)
    }

    fn remove_file(&self, path: &str) -> io::Result<()> {
        self.rt.remove_file(path)
    }

    fn create_dir(&self, path: &str) -> io::Result<()> {
        self.rt.create_dir(path)
    }

    fn remove_dir(&self, path: &str) -> io::Result<()> {
        self.rt.remove_dir(path)
    }

    fn remove_dir_all<B: Allocator>(&self, alloc: B, path: &str) -> io::Result<()> {
        self.rt.remove_dir_all(alloc, path)
    }
}

/// The initial message and the final message.
const IM_FM: &[u8] = b"\x00\x00\x00\x04\x00\x01\xda\x10\x03\x00\x00\x00";

/// An output that connects a bot when it gets its first line. The bot sends an IM and an FM, and stays connected.
#[derive(Drop)]
struct Announced<'a, R: Net> {
    rt: &'a R,
    gate: &'a str,
    text: Vec<u8>,
    bot: Option<R::Stream>,
}

impl<R: Net> Write for Announced<'_, R> {
    fn write(&mut self, bytes: &[u8]) -> io::Result<usize> {
        self.text.extend_from_slice(bytes)?;
        if self.text.as_slice() == b"listening\n".as_slice() {
            let mut bot = TcpStream::connect(self.rt, self.gate)?;
            bot.write_all(IM_FM)?;
            self.bot = Some(bot);
        }
        Ok(bytes.len())
    }

    fn flush(&mut self) -> io::Result<()> {
        Ok(())
    }
}

/// Runs with a bot that connects once the run listens. Checks that one line is printed, and nothing is logged.
fn serves_one<R: AllocGlobal + FolderLock + Clock + Net>(
    rt: &R,
    (listen, at): (&str, &str),
    to: &str,
) -> Result<(), Fail> {
    let settings = format!(in rt.alloc(); "listen = '{listen}'\nserver = '{to}'")?;
    let mut output = Announced {
        rt,
        gate: at,
        text: Vec::new(rt.alloc()),
        bot: None,
    };
    let mut errors = Vec::new(rt.alloc());
    let ended = run_text(rt, settings.as_str(), None, false, &mut output, &mut errors);
    let is_quiet = errors.is_empty() && output.text.as_slice() == b"listening\n".as_slice();
    holds(ended.is_ok() && is_quiet && output.bot.is_some(), "the run")
}

/// Accepts a connection that waits at the server, and returns whether it sent an IM and an FM.
fn brought_both(rt: &HostRuntime, server: &TcpListener) -> Result<bool, Fail> {
    let (mut heard, _) = server.accept()?;
    heard.set_read_timeout(Some(Duration::from_secs(5)))?;
    let mut bytes = vec![in rt.alloc(); 0u8; 12]?;
    heard.read_exact(bytes.as_mut_slice())?;
    Ok(bytes.starts_with(IM) && bytes.ends_with(FM))
}

/// Nothing listens at the first of a name's addresses, and the server listens at the second. The bot is served there,
/// and nothing is logged.
#[test]
fn second_address_of_the_server_is_tried(rt: HostRuntime) -> Result<(), Fail> {
    let server = TcpListener::bind(&rt, any_port())?;
    let nobody = TcpListener::bind(&rt, any_port())?.local_addr()?;
    let names = Named {
        rt: &rt,
        addresses: [nobody, server.local_addr()?],
    };
    let at = TcpListener::bind(&rt, any_port())?.local_addr()?;
    let at = at.to_string(rt.alloc())?;
    serves_one(&names, (at.as_str(), at.as_str()), "server:1")?;
    holds(brought_both(&rt, &server)?, "both frames")
}

/// The first of a name's addresses is in use. Bots are accepted at the second.
#[test]
fn second_address_is_listened_on(rt: HostRuntime) -> Result<(), Fail> {
    let server = TcpListener::bind(&rt, any_port())?;
    let taken = TcpListener::bind(&rt, any_port())?;
    let free = TcpListener::bind(&rt, any_port())?.local_addr()?;
    let names = Named {
        rt: &rt,
        addresses: [taken.local_addr()?, free],
    };
    let at = free.to_string(rt.alloc())?;
    let to = server.local_addr()?.to_string(rt.alloc())?;
    serves_one(&names, ("gate:1", at.as_str()), to.as_str())?;
    holds(brought_both(&rt, &server)?, "both frames")
}

/// The first of a name's addresses is in use, and nobody listens there once it is free. Both trials pass at the second.
#[test]
fn second_address_passes_a_trial(rt: HostRuntime) -> Result<(), Fail> {
    let server = TcpListener::bind(&rt, any_port())?;
    let taken = TcpListener::bind(&rt, any_port())?;
    let free = TcpListener::bind(&rt, any_port())?.local_addr()?;
    let first = taken.local_addr()?;
    let names = Named {
        rt: &rt,
        addresses: [first, free],
    };
    holds(
        try_listen(&names, "gate:1").is_ok_and(|at| at == free),
        "listen",
    )?;
    drop(taken);
    let there = server.local_addr()?;
    let names = Named {
        rt: &rt,
        addresses: [first, there],
    };
    holds(
        try_connect(&names, "server:1").is_ok_and(|at| at == there),
        "server",
    )
}
