//! As much of JSON as the vectors need: no escapes, no fractions.

#[derive(Clone, Debug, PartialEq)]
pub enum Json {
    Null,
    Bool(bool),
    Number(u64),
    Text(String),
    List(Vec<Json>),
    Object(Vec<(String, Json)>),
}

impl Json {
    pub fn parse(text: &str) -> Option<Json> {
        let mut rest = text.trim();
        let value = value(&mut rest)?;
        rest.trim().is_empty().then_some(value)
    }

    pub fn get(&self, key: &str) -> Option<&Json> {
        match self {
            Json::Object(members) => members.iter().find(|(k, _)| k == key).map(|(_, v)| v),
            _ => None,
        }
    }

    pub fn number(&self) -> Option<u64> {
        match self {
            Json::Number(n) => Some(*n),
            _ => None,
        }
    }

    pub fn text(&self) -> Option<&str> {
        match self {
            Json::Text(s) => Some(s),
            _ => None,
        }
    }

    pub fn list(&self) -> Option<&[Json]> {
        match self {
            Json::List(list) => Some(list),
            _ => None,
        }
    }
}

fn skip(rest: &mut &str, wanted: char) -> bool {
    *rest = rest.trim_start();
    match rest.strip_prefix(wanted) {
        Some(behind) => {
            *rest = behind;
            true
        }
        None => false,
    }
}

fn string(rest: &mut &str) -> Option<String> {
    if !skip(rest, '"') {
        return None;
    }
    let (text, behind) = rest.split_once('"')?;
    *rest = behind;
    (!text.contains('\\')).then(|| text.to_string())
}

fn value(rest: &mut &str) -> Option<Json> {
    *rest = rest.trim_start();
    match rest.chars().next()? {
        '{' => {
            skip(rest, '{');
            let mut members = Vec::new();
            while !skip(rest, '}') {
                if !members.is_empty() && !skip(rest, ',') {
                    return None;
                }
                let key = string(rest)?;
                if !skip(rest, ':') {
                    return None;
                }
                members.push((key, value(rest)?));
            }
            Some(Json::Object(members))
        }
        '[' => {
            skip(rest, '[');
            let mut list = Vec::new();
            while !skip(rest, ']') {
                if !list.is_empty() && !skip(rest, ',') {
                    return None;
                }
                list.push(value(rest)?);
            }
            Some(Json::List(list))
        }
        '"' => string(rest).map(Json::Text),
        'n' => {
            *rest = rest.strip_prefix("null")?;
            Some(Json::Null)
        }
        't' => {
            *rest = rest.strip_prefix("true")?;
            Some(Json::Bool(true))
        }
        'f' => {
            *rest = rest.strip_prefix("false")?;
            Some(Json::Bool(false))
        }
        _ => {
            let end = rest.find(|c: char| !c.is_ascii_digit()).unwrap_or(rest.len());
            let (digits, behind) = rest.split_at(end);
            *rest = behind;
            digits.parse().ok().map(Json::Number)
        }
    }
}
