//! Memory that may be refused.
use crate::{Error, Result};

/// Room for so many.
pub(crate) fn room<T>(count: usize) -> Result<Vec<T>> {
    let mut room = Vec::new();
    room.try_reserve_exact(count).map_err(|_| Error::NoMemory)?;
    Ok(room)
}

/// Makes bytes so many, with zeros behind those that are there.
pub(crate) fn resize(bytes: &mut Vec<u8>, count: usize) -> Result<()> {
    bytes.try_reserve_exact(count.saturating_sub(bytes.len())).map_err(|_| Error::NoMemory)?;
    bytes.resize(count, 0);
    Ok(())
}

/// So many zeros.
pub(crate) fn zeros(count: usize) -> Result<Vec<u8>> {
    let mut bytes = Vec::new();
    resize(&mut bytes, count)?;
    Ok(bytes)
}

/// A text of these bytes, which the archive writes as ASCII.
pub(crate) fn text(bytes: &[u8]) -> Result<String> {
    let lossy = String::from_utf8_lossy(bytes);
    let mut text = String::new();
    text.try_reserve_exact(lossy.len()).map_err(|_| Error::NoMemory)?;
    text.push_str(&lossy);
    Ok(text)
}

#[cfg(test)]
mod tests {
    use super::{resize, room, text, zeros};
    use crate::Error;

    #[test]
    fn refused_memory_is_answered() {
        assert_eq!(zeros(usize::MAX), Err(Error::NoMemory));
        assert_eq!(room::<u16>(usize::MAX), Err(Error::NoMemory));
        let mut bytes = vec![1, 2];
        assert_eq!(resize(&mut bytes, usize::MAX), Err(Error::NoMemory));
        assert_eq!(bytes, [1, 2]);
        assert_eq!((resize(&mut bytes, 3), bytes), (Ok(()), vec![1, 2, 0]));
        assert_eq!((zeros(2), text(b"legal")), (Ok(vec![0, 0]), Ok("legal".into())));
    }
}
