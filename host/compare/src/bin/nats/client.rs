//! A connection to a NATS server.
use std::io::{self, BufRead, BufReader, Read, Write};
use std::net::TcpStream;
use std::time::Duration;

pub struct Client {
    reader: BufReader<TcpStream>,
    writer: TcpStream,
}

pub fn odd(what: &str) -> io::Error {
    io::Error::new(io::ErrorKind::InvalidData, what.to_string())
}

impl Client {
    pub fn connect(address: &str) -> io::Result<Client> {
        let writer = TcpStream::connect(address)?;
        writer.set_read_timeout(Some(Duration::from_secs(20)))?;
        let mut client = Client {
            reader: BufReader::new(writer.try_clone()?),
            writer,
        };
        if !client.line()?.starts_with(b"INFO ") {
            return Err(odd("the server does not greet as NATS does"));
        }
        client.send(b"CONNECT {\"verbose\":false,\"pedantic\":false,\"echo\":true}\r\n")?;
        Ok(client)
    }

    fn send(&mut self, bytes: &[u8]) -> io::Result<()> {
        self.writer.write_all(bytes)
    }

    /// A line without its end.
    fn line(&mut self) -> io::Result<Vec<u8>> {
        let mut line = Vec::new();
        self.reader.read_until(b'\n', &mut line)?;
        if !line.ends_with(b"\r\n") {
            return Err(odd("the server closed the connection"));
        }
        line.truncate(line.len() - 2);
        Ok(line)
    }

    pub fn subscribe(&mut self, patterns: &[String]) -> io::Result<()> {
        let lines = patterns.iter().enumerate();
        let text: String = lines
            .map(|(id, pattern)| format!("SUB {pattern} {id}\r\n"))
            .collect();
        self.send(text.as_bytes())
    }

    /// Publishes each subject with its number as the message.
    pub fn publish(&mut self, subjects: &[String]) -> io::Result<()> {
        let lines = subjects.iter().enumerate().map(|(number, subject)| {
            let message = number.to_string();
            format!("PUB {subject} {}\r\n{message}\r\n", message.len())
        });
        let text: String = lines.collect();
        self.send(text.as_bytes())
    }

    /// What was delivered until the server answers a ping: pairs of a subscription and a message.
    pub fn delivered(&mut self) -> io::Result<Vec<(usize, usize)>> {
        self.send(b"PING\r\n")?;
        let mut pairs = Vec::new();
        loop {
            let line = self.line()?;
            if line == b"PONG" {
                return Ok(pairs);
            }
            if line == b"PING" {
                self.send(b"PONG\r\n")?;
                continue;
            }
            pairs.push(self.message(&line)?);
        }
    }

    /// `MSG subject subscription length`, and the message on a line of its own.
    fn message(&mut self, line: &[u8]) -> io::Result<(usize, usize)> {
        let text = String::from_utf8_lossy(line).into_owned();
        let words: Vec<&str> = text.split(' ').collect();
        let ["MSG", _, subscription, length] = words[..] else {
            return Err(odd(&format!("the server says: {text}")));
        };
        let length: usize = length.parse().map_err(|_| odd(&text))?;
        let mut message = vec![0; length + 2];
        self.reader.read_exact(&mut message)?;
        let message = String::from_utf8_lossy(&message[..length]).into_owned();
        let subscription = subscription.parse().map_err(|_| odd(&text))?;
        Ok((subscription, message.parse().map_err(|_| odd(&text))?))
    }
}
