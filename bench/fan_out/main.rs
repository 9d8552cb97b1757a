//! What the scripts of `run` and of `bench/one_user/run` ask of `ircd sim`, in plain Rust: clients of one server register, change nicknames, join and leave
//! channels, invite, say texts and quit. It prints what `ircd sim` prints.
use std::collections::{BTreeMap, BTreeSet, HashMap, HashSet};
use std::io::{self, Read, Write};

/// A write is made once so much is waiting.
const BATCH: usize = 65_536;

/// The most bytes of a line for a client, without its CR LF.
const MAX_LINE: usize = 510;

/// How many names stand in a 353.
const NAMES_IN_LINE: usize = 10;

struct Client {
    host: Vec<u8>,
    nick: Option<Vec<u8>>,
    user: Option<Vec<u8>>,
    registered: bool,
    /// The folded names of the channels that it is in.
    channels: BTreeSet<Vec<u8>>,
    /// The folded names of the channels that it is invited to.
    invited: HashSet<Vec<u8>>,
}

struct Member {
    client: u64,
    nick: Vec<u8>,
    operator: bool,
}

struct Channel {
    name: Vec<u8>,
    /// By folded nickname.
    members: BTreeMap<Vec<u8>, Member>,
    /// The clients that are invited.
    invited: HashSet<u64>,
}

/// A line read as a message, but for its prefix: the scripts give none.
struct Message<'a> {
    command: &'a [u8],
    params: Vec<&'a [u8]>,
}

struct Server<W: Write> {
    name: Vec<u8>,
    next: u64,
    clients: HashMap<u64, Client>,
    /// The client of a folded nickname.
    users: HashMap<Vec<u8>, u64>,
    /// By folded name.
    channels: HashMap<Vec<u8>, Channel>,
    printed: Vec<u8>,
    output: W,
}

fn fold(name: &[u8]) -> Vec<u8> {
    let folded = name.iter().map(|byte| match byte {
        b'A'..=b'Z' => byte + 32,
        b'[' => b'{',
        b']' => b'}',
        b'\\' => b'|',
        b'~' => b'^',
        _ => *byte,
    });
    folded.collect()
}

fn cut_at_space(text: &[u8]) -> Option<(&[u8], &[u8])> {
    let end = text.iter().position(|&byte| byte == b' ')?;
    Some((&text[..end], &text[end + 1..]))
}

fn number(word: &[u8]) -> Option<u64> {
    std::str::from_utf8(word).ok()?.parse().ok()
}

fn parse(line: &[u8]) -> Option<Message<'_>> {
    if line.contains(&0) {
        return None;
    }
    let mut rest = line;
    let mut words = Vec::new();
    while let Some((&first, behind_colon)) = rest.split_first() {
        if first == b' ' {
            rest = behind_colon;
        } else if first == b':' && !words.is_empty() {
            words.push(behind_colon);
            break;
        } else {
            let end = rest.iter().position(|&byte| byte == b' ').unwrap_or(rest.len());
            words.push(&rest[..end]);
            rest = &rest[end..];
        }
    }
    let (command, params) = words.split_first()?;
    Some(Message {
        command,
        params: params.to_vec(),
    })
}

/// A line of a user, cut to what a line may hold.
fn line_by(user: &Client, nick: &[u8], words: &[&[u8]]) -> Vec<u8> {
    let mut line = Vec::with_capacity(MAX_LINE);
    line.push(b':');
    line.extend_from_slice(nick);
    line.push(b'!');
    line.extend_from_slice(user.user.as_deref().unwrap_or_default());
    line.push(b'@');
    line.extend_from_slice(&user.host);
    for word in words {
        line.push(b' ');
        line.extend_from_slice(word);
    }
    line.truncate(MAX_LINE);
    line
}

/// A line of the server to a client.
fn reply(server: &[u8], code: &[u8], nick: &[u8], words: &[&[u8]]) -> Vec<u8> {
    let mut line = vec![b':'];
    line.extend_from_slice(server);
    for word in [code, nick].iter().chain(words) {
        line.push(b' ');
        line.extend_from_slice(word);
    }
    line.truncate(MAX_LINE);
    line
}

fn name_lines(channel: &Channel) -> Vec<Vec<u8>> {
    let mut lines = Vec::new();
    let mut line = Vec::new();
    for (i, member) in channel.members.values().enumerate() {
        if i % NAMES_IN_LINE == 0 && i > 0 {
            lines.push(std::mem::take(&mut line));
        }
        line.push(if i % NAMES_IN_LINE == 0 { b':' } else { b' ' });
        if member.operator {
            line.push(b'@');
        }
        line.extend_from_slice(&member.nick);
    }
    lines.push(line);
    lines
}

impl<W: Write> Server<W> {
    /// Prints a line to a client.
    fn show(&mut self, client: u64, line: &[u8]) -> io::Result<()> {
        write!(self.printed, "{client} ")?;
        self.printed.extend_from_slice(line);
        self.printed.push(b'\n');
        if self.printed.len() >= BATCH {
            self.write_printed()?;
        }
        Ok(())
    }

    fn write_printed(&mut self) -> io::Result<()> {
        self.output.write_all(&self.printed)?;
        self.printed.clear();
        Ok(())
    }

    fn answer(&mut self, to: u64, code: &[u8], nick: &[u8], words: &[&[u8]]) -> io::Result<()> {
        let line = reply(&self.name, code, nick, words);
        self.show(to, &line)
    }

    fn say(&mut self, from: u64, line: &[u8]) -> io::Result<()> {
        let Some(client) = self.clients.get(&from) else {
            self.printed.extend_from_slice(b"! 3\n");
            return Ok(());
        };
        let Some(message) = parse(&line[..line.len().min(MAX_LINE)]) else {
            return Ok(());
        };
        let registered = client.registered;
        match (message.command.to_ascii_uppercase().as_slice(), message.params.as_slice()) {
            (b"NICK", [nick]) if !registered => self.take_nick(from, nick),
            (b"USER", [user, _, _, _]) if !registered => self.take_user(from, user),
            (b"NICK", [nick]) => self.rename(from, nick),
            (b"JOIN", [name]) => self.join(from, name),
            (b"PART", [name]) => self.part(from, name),
            (b"INVITE", [nick, name]) => self.invite(from, nick, name),
            (b"QUIT", []) => self.quit(from),
            (b"PRIVMSG", [target, text]) => self.tell(from, target, text),
            _ => Err(io::Error::other("the scripts have no such line")),
        }
    }

    fn take_nick(&mut self, from: u64, nick: &[u8]) -> io::Result<()> {
        if self.users.contains_key(&fold(nick)) {
            return self.answer(from, b"433", b"*", &[nick, b":Nickname is already in use"]);
        }
        if let Some(client) = self.clients.get_mut(&from) {
            client.nick = Some(nick.to_vec());
        }
        self.register(from)
    }

    fn take_user(&mut self, from: u64, user: &[u8]) -> io::Result<()> {
        if let Some(client) = self.clients.get_mut(&from) {
            client.user = Some(user.to_vec());
        }
        self.register(from)
    }

    fn register(&mut self, from: u64) -> io::Result<()> {
        let Some(client) = self.clients.get_mut(&from) else {
            return Ok(());
        };
        let (Some(nick), Some(user)) = (&client.nick, &client.user) else {
            return Ok(());
        };
        let mut whole = b":Welcome to the Internet Relay Network ".to_vec();
        for part in [nick.as_slice(), b"!", user, b"@", &client.host] {
            whole.extend_from_slice(part);
        }
        let nick = nick.clone();
        client.registered = true;
        self.users.insert(fold(&nick), from);
        let host = format!(":Your host is {}, running version treeircd-1", String::from_utf8_lossy(&self.name));
        let mut version = self.name.clone();
        version.extend_from_slice(b" treeircd-1 i biklmnopstv");
        self.answer(from, b"001", &nick, &[&whole])?;
        self.answer(from, b"002", &nick, &[host.as_bytes()])?;
        self.answer(from, b"003", &nick, &[b":This server was created 2024-01-01"])?;
        self.answer(from, b"004", &nick, &[&version])?;
        self.answer(from, b"422", &nick, &[b":MOTD File is missing"])
    }

    /// A client's nickname.
    fn nick(&self, client: u64) -> Vec<u8> {
        self.clients[&client].nick.clone().unwrap_or_default()
    }

    /// Those who share a channel with a client, itself too where it is in one, in folded order.
    fn near(&self, client: u64) -> BTreeMap<&[u8], u64> {
        let own = self.clients[&client].channels.iter().map(|name| &self.channels[name]);
        own.flat_map(|channel| &channel.members)
            .map(|(folded, member)| (folded.as_slice(), member.client))
            .collect()
    }

    fn rename(&mut self, from: u64, nick: &[u8]) -> io::Result<()> {
        let old = self.nick(from);
        let (before, now) = (fold(&old), fold(nick));
        if self.users.contains_key(&now) {
            return self.answer(from, b"433", &old, &[nick, b":Nickname is already in use"]);
        }
        let mut near = self.near(from);
        near.insert(&before, from);
        let viewers: Vec<u64> = near.into_values().collect();
        let client = self.clients.get_mut(&from).expect("it is there");
        let line = line_by(client, &old, &[b"NICK", nick]);
        client.nick = Some(nick.to_vec());
        for name in &client.channels {
            let members = &mut self.channels.get_mut(name).expect("a channel of its own").members;
            let member = members.remove(&before).expect("a member");
            members.insert(now.clone(), Member { nick: nick.to_vec(), ..member });
        }
        self.users.remove(&before);
        self.users.insert(now, from);
        for viewer in viewers {
            self.show(viewer, &line)?;
        }
        Ok(())
    }

    /// Takes a member out of a channel, which ends with its last.
    fn take_out(&mut self, channel: &[u8], nick: &[u8]) {
        let found = self.channels.get_mut(channel).expect("it is there");
        found.members.remove(nick);
        if !found.members.is_empty() {
            return;
        }
        let ended = self.channels.remove(channel).expect("it is there");
        for guest in ended.invited {
            self.clients.get_mut(&guest).expect("it is there").invited.remove(channel);
        }
    }

    fn part(&mut self, from: u64, name: &[u8]) -> io::Result<()> {
        let (folded, nick) = (fold(name), self.nick(from));
        let channel = &self.channels[&folded];
        let line = line_by(&self.clients[&from], &nick, &[b"PART", &channel.name, &[b":", nick.as_slice()].concat()]);
        let viewers: Vec<u64> = channel.members.values().map(|member| member.client).collect();
        self.clients.get_mut(&from).expect("it is there").channels.remove(&folded);
        self.take_out(&folded, &fold(&nick));
        for viewer in viewers {
            self.show(viewer, &line)?;
        }
        Ok(())
    }

    fn invite(&mut self, from: u64, nick: &[u8], name: &[u8]) -> io::Result<()> {
        let (folded, by) = (fold(name), self.nick(from));
        let guest = self.users[&fold(nick)];
        let channel = self.channels.get_mut(&folded).expect("it is there");
        channel.invited.insert(guest);
        let line = line_by(&self.clients[&from], &by, &[b"INVITE", nick, &channel.name]);
        let stored = channel.name.clone();
        self.clients.get_mut(&guest).expect("it is there").invited.insert(folded);
        self.answer(from, b"341", &by, &[&stored, nick])?;
        self.show(guest, &line)
    }

    fn quit(&mut self, from: u64) -> io::Result<()> {
        let nick = self.nick(from);
        let viewers: Vec<u64> = self.near(from).into_values().filter(|&viewer| viewer != from).collect();
        let client = self.clients.remove(&from).expect("it is there");
        for name in &client.invited {
            self.channels.get_mut(name).expect("it is there").invited.remove(&from);
        }
        for name in &client.channels {
            self.take_out(name, &fold(&nick));
        }
        self.users.remove(&fold(&nick));
        let line = line_by(&client, &nick, &[b"QUIT", &[b":", nick.as_slice()].concat()]);
        for viewer in viewers {
            self.show(viewer, &line)?;
        }
        self.show(from, &[b"ERROR :Closing link (", nick.as_slice(), b")"].concat())
    }

    fn join(&mut self, from: u64, name: &[u8]) -> io::Result<()> {
        let folded = fold(name);
        let client = self.clients.get_mut(&from).expect("it is there");
        let nick = client.nick.clone().unwrap_or_default();
        client.channels.insert(folded.clone());
        client.invited.remove(&folded);
        let channel = self.channels.entry(folded).or_insert_with(|| Channel {
            name: name.to_vec(),
            members: BTreeMap::new(),
            invited: HashSet::new(),
        });
        channel.invited.remove(&from);
        let member = Member {
            client: from,
            nick: nick.clone(),
            operator: channel.members.is_empty(),
        };
        channel.members.insert(fold(&nick), member);
        let line = line_by(client, &nick, &[b"JOIN", &channel.name]);
        let viewers: Vec<u64> = channel.members.values().map(|member| member.client).collect();
        let lists = name_lines(channel);
        let stored = channel.name.clone();
        for viewer in viewers {
            self.show(viewer, &line)?;
        }
        for names in lists {
            self.answer(from, b"353", &nick, &[b"=", &stored, &names])?;
        }
        self.answer(from, b"366", &nick, &[name, b":End of NAMES list"])
    }

    fn tell(&mut self, from: u64, target: &[u8], text: &[u8]) -> io::Result<()> {
        let client = &self.clients[&from];
        let nick = client.nick.as_deref().unwrap_or_default();
        let mut last = vec![b':'];
        last.extend_from_slice(text);
        let folded = fold(target);
        let (line, viewers) = if let Some(channel) = self.channels.get(&folded) {
            let others = channel.members.values().filter(|member| member.client != from);
            let viewers: Vec<u64> = others.map(|member| member.client).collect();
            (line_by(client, nick, &[b"PRIVMSG", &channel.name, &last]), viewers)
        } else if let Some(&viewer) = self.users.get(&folded) {
            let stored = self.clients[&viewer].nick.as_deref().unwrap_or_default();
            (line_by(client, nick, &[b"PRIVMSG", stored, &last]), vec![viewer])
        } else {
            let nick = nick.to_vec();
            return self.answer(from, b"401", &nick, &[target, b":No such nick/channel"]);
        };
        for viewer in viewers {
            self.show(viewer, &line)?;
        }
        Ok(())
    }

    fn perform(&mut self, line: &[u8]) -> io::Result<()> {
        let bad = || io::Error::other("a bad line");
        let (word, rest) = cut_at_space(line).ok_or_else(bad)?;
        match word {
            b"server" => self.name = rest.to_vec(),
            b"connect" => {
                let (_, host) = cut_at_space(rest).ok_or_else(bad)?;
                let client = Client {
                    host: host.to_vec(),
                    nick: None,
                    user: None,
                    registered: false,
                    channels: BTreeSet::new(),
                    invited: HashSet::new(),
                };
                self.clients.insert(self.next, client);
                self.next += 1;
            }
            b"say" => {
                let (client, text) = cut_at_space(rest).ok_or_else(bad)?;
                self.say(number(client).ok_or_else(bad)?, text)?;
            }
            _ => return Err(bad()),
        }
        Ok(())
    }
}

fn main() -> io::Result<()> {
    let mut script = Vec::new();
    io::stdin().read_to_end(&mut script)?;
    let mut server = Server {
        name: Vec::new(),
        next: 1,
        clients: HashMap::new(),
        users: HashMap::new(),
        channels: HashMap::new(),
        printed: Vec::with_capacity(2 * BATCH),
        output: io::stdout().lock(),
    };
    for line in script.split(|&byte| byte == b'\n').filter(|line| !line.is_empty()) {
        server.perform(line)?;
    }
    server.write_printed()?;
    server.output.flush()
}
