//! The same as main.rattle by rusqlite: the same table, statements, journal and syncs, one commit a save.
use rusqlite::{params, Connection, Result};

fn id_of(number: u64) -> [u8; 32] {
    let mut id = [0; 32];
    id[..8].copy_from_slice(&number.wrapping_mul(11_400_714_819_323_198_485).to_be_bytes());
    id
}

/// The database at a path, with its table, each body of which is read once.
fn opened(path: &str) -> Result<Connection> {
    let db = Connection::open(path)?;
    db.pragma_update(None, "locking_mode", "EXCLUSIVE")?;
    db.pragma_update(None, "journal_mode", "WAL")?;
    db.pragma_update(None, "synchronous", "FULL")?;
    db.execute_batch("CREATE TABLE IF NOT EXISTS records(id BLOB PRIMARY KEY, body BLOB NOT NULL)")?;
    let mut all = db.prepare("SELECT body FROM records")?;
    let bodies: Result<Vec<Vec<u8>>> = all.query_map([], |row| row.get(0))?.collect();
    drop(bodies?);
    drop(all);
    Ok(db)
}

fn save_all(db: &Connection, count: u64) -> Result<()> {
    let body = vec![7u8; 3000];
    let mut save = db.prepare("INSERT OR REPLACE INTO records(id, body) VALUES (?1, ?2)")?;
    for number in 0..count {
        save.execute(params![id_of(number), body])?;
    }
    Ok(())
}

fn load_all(db: &Connection, count: u64) -> Result<()> {
    let mut load = db.prepare("SELECT body FROM records WHERE id = ?1")?;
    for number in 0..count {
        let body: Vec<u8> = load.query_row([id_of(number)], |row| row.get(0))?;
        drop(body);
    }
    Ok(())
}

fn list(db: &Connection, count: u64) -> Result<()> {
    let mut ids = db.prepare("SELECT id FROM records ORDER BY id")?;
    for _ in 0..count {
        let all: Result<Vec<[u8; 32]>> = ids.query_map([], |row| row.get(0))?.collect();
        drop(all?);
    }
    Ok(())
}

fn main() -> Result<()> {
    let words: Vec<String> = std::env::args().collect();
    let count = words[3].parse().expect("a count");
    let db = opened(&words[1])?;
    match words[2].as_str() {
        "save" => save_all(&db, count),
        "load" => load_all(&db, count),
        _ => list(&db, count),
    }
}
