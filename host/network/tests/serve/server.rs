//! A server for one test, its files, and clients of it.

use std::fs::{self, File};
use std::io::{BufRead, BufReader, Read, Write};
use std::net::{SocketAddr, TcpStream};
use std::path::{Path, PathBuf};
use std::process::{self, Child, ChildStderr, Command, Stdio};
use std::time::{Duration, Instant};
use std::{env, thread};

/// No test waits longer for a reply.
pub const PATIENCE: Duration = Duration::from_secs(20);

/// A folder for the files of one test, removed at its end.
pub struct Folder(PathBuf);

impl Folder {
    pub fn new(test: &str) -> Folder {
        let path = env::temp_dir().join(format!("egrivundo-serve-{}-{test}", process::id()));
        fs::create_dir_all(&path).expect("the folder is made");
        Folder(path)
    }

    pub fn path(&self, name: &str) -> PathBuf {
        self.0.join(name)
    }

    pub fn file(&self, name: &str, content: impl AsRef<[u8]>) -> PathBuf {
        let path = self.path(name);
        fs::write(&path, content).expect("the file is written");
        path
    }
}

impl Drop for Folder {
    fn drop(&mut self) {
        let _ = fs::remove_dir_all(&self.0);
    }
}

pub struct Server {
    child: Child,
    stderr: BufReader<ChildStderr>,
    /// What it said before it listened.
    pub said: String,
    pub address: SocketAddr,
    log: PathBuf,
}

impl Server {
    /// The program with these options behind a room; the log goes to a file.
    pub fn command(room: &Path, options: &[&str], log: &Path) -> Command {
        Server::by(&["env"], room, options, log)
    }

    /// The same, started by another program.
    pub fn by(starter: &[&str], room: &Path, options: &[&str], log: &Path) -> Command {
        let mut command = Command::new(starter[0]);
        let log = File::create(log).expect("the log is made");
        command.args(&starter[1..]);
        command.arg(env!("CARGO_BIN_EXE_egrivundo"));
        command.arg("serve").arg(room).args(options);
        command.stdin(Stdio::null()).stdout(log);
        command
    }

    /// What a server that does not start says; it ends with status 1.
    pub fn refused(mut command: Command) -> String {
        let mut child = command.stderr(Stdio::piped()).spawn().expect("it runs");
        let start = Instant::now();
        while child.try_wait().expect("a child").is_none() && start.elapsed() < PATIENCE {
            thread::sleep(Duration::from_millis(5));
        }
        let _ = child.kill();
        let output = child.wait_with_output().expect("it ends");
        let said = String::from_utf8(output.stderr).expect("text");
        assert_eq!(output.status.code(), Some(1), "{said}");
        said
    }

    /// Starts a server on a free port, with its log in a folder.
    pub fn start(folder: &Folder, room: &Path, options: &[&str]) -> Server {
        Server::logging(folder.path("log"), room, options)
    }

    /// Starts a server with its log in a file.
    pub fn logging(log: PathBuf, room: &Path, options: &[&str]) -> Server {
        Server::started_by(&["env"], log, room, options)
    }

    /// The same, started by another program.
    pub fn started_by(starter: &[&str], log: PathBuf, room: &Path, options: &[&str]) -> Server {
        let options = [&["--listen", "127.0.0.1:0"], options].concat();
        let mut command = Server::by(starter, room, &options, &log);
        let mut child = command.stderr(Stdio::piped()).spawn().expect("it starts");
        let mut stderr = BufReader::new(child.stderr.take().expect("a pipe"));
        let mut said = String::new();
        let address = loop {
            let mut line = String::new();
            let count = stderr.read_line(&mut line).expect("text in UTF-8");
            assert!(count > 0, "it ended: {said}");
            if let Some(rest) = line.strip_prefix("Listening on ") {
                let (address, _) = rest.split_once(". ").expect("an address");
                break address.parse().expect("an address");
            }
            said += &line;
        };
        Server {
            child,
            stderr,
            said,
            address,
            log,
        }
    }

    pub fn connect(&self) -> Client {
        let stream = TcpStream::connect(self.address).expect("it listens");
        stream.set_nodelay(true).expect("no delay");
        stream.set_read_timeout(Some(PATIENCE)).expect("a time");
        stream.set_write_timeout(Some(PATIENCE)).expect("a time");
        Client { stream }
    }

    pub fn log(&self) -> String {
        fs::read_to_string(&self.log).expect("the log is text")
    }

    /// Waits until the log has a text.
    pub fn await_log(&self, text: &str) {
        self.await_times(1, text);
    }

    /// Waits until the log has a text so many times.
    pub fn await_times(&self, times: usize, text: &str) {
        for _ in 0..PATIENCE.as_millis() / 10 {
            if self.log().matches(text).count() >= times {
                return;
            }
            thread::sleep(Duration::from_millis(10));
        }
        panic!("the log has no `{text}`, {times} times:\n{}", self.log());
    }

    /// The most memory that it ever had, in KiB.
    pub fn peak(&self) -> usize {
        let path = format!("/proc/{}/status", self.child.id());
        let status = fs::read_to_string(path).expect("it runs");
        let line = status.lines().find_map(|line| line.strip_prefix("VmHWM:"));
        let number = line.and_then(|line| line.split_whitespace().next());
        number.expect("a number").parse().expect("a number")
    }

    pub fn signal(&self, name: &str) {
        let id = self.child.id().to_string();
        let sent = Command::new("kill").args([name, &id]).status();
        assert!(sent.expect("kill runs").success());
    }

    /// Waits for its end: the status, and what it said after it listened.
    pub fn ended(mut self) -> (Option<i32>, String) {
        let mut said = String::new();
        self.stderr
            .read_to_string(&mut said)
            .expect("text in UTF-8");
        (self.child.wait().expect("it ends").code(), said)
    }

    /// Ends it as `kill -9` does.
    pub fn kill(&mut self) {
        self.child.kill().expect("it runs");
        self.child.wait().expect("it ends");
    }
}

impl Drop for Server {
    fn drop(&mut self) {
        let _ = self.child.kill();
        let _ = self.child.wait();
    }
}

pub struct Client {
    pub stream: TcpStream,
}

impl Client {
    pub fn send(&mut self, bytes: &[u8]) {
        self.stream.write_all(bytes).expect("it is sent");
    }

    /// So many bytes of replies.
    pub fn read(&mut self, count: usize) -> Vec<u8> {
        let mut bytes = vec![0; count];
        self.stream.read_exact(&mut bytes).expect("a reply comes");
        bytes
    }

    /// One reply to one line, both without their ends.
    pub fn ask(&mut self, line: &str) -> String {
        self.send(format!("{line}\r").as_bytes());
        let mut reply = Vec::new();
        loop {
            match self.read(1)[..] {
                [b'\r'] => return String::from_utf8(reply).expect("ASCII"),
                [byte] => reply.push(byte),
                _ => unreachable!(),
            }
        }
    }

    /// Sends no more; all that still comes.
    pub fn rest(mut self) -> Vec<u8> {
        let _ = self.stream.shutdown(std::net::Shutdown::Write);
        let mut bytes = Vec::new();
        self.stream.read_to_end(&mut bytes).expect("it closes");
        bytes
    }
}
