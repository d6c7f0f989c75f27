//! The files of a torrent.

/// A file of a torrent. The content is all of them, one behind the other.
#[derive(Clone, Debug, PartialEq, Eq, Hash)]
pub struct File {
    /// Its bytes.
    pub length: u64,
    /// The names on its path. The first one is the torrent's own, which is the file's where there is one.
    ///
    /// They are whatever the metainfo file says: empty, `..`, with slashes or zeros in them. Look at each before you make a path of it.
    pub path: Vec<Vec<u8>>,
}
