//! What a cardholder hears: the line of the focus, the items that the keys go through, and a walk from item to item that
//! is kept while the screen changes. Every word that is spoken comes from the library. examples/c/speak.c says the same.
use cartgravel::{Batch, CHANGES, Filter, Node, NodeRef, RECORD_BYTES, Role, Side, State, TreeId, Walk};
use std::error::Error;
use std::fmt::Write;

/// The bank's tree, and roles of our own.
const BANK: TreeId = TreeId { high: 0x0123_4567_89ab_cdef, low: 7 };
const WINDOW: Role = Role(4);
const TEXT: Role = Role(5);
const BUTTON: Role = Role(6);
const FIELD: Role = Role(7);

type Spoken = Result<String, Box<dyn Error>>;

/// A role in words.
fn role_words(role: Role) -> &'static str {
    match role {
        WINDOW => "window",
        TEXT => "text",
        BUTTON => "button",
        FIELD => "field",
        _ => "item",
    }
}

/// The line of a node: its label and its role.
fn line(what: &str, node: NodeRef) -> String {
    format!("  {what}: {}, {}\n", node.label(), role_words(node.role()))
}

/// The line of what has the focus, and those of the items that a cardholder can reach.
fn screen(state: &State) -> Spoken {
    let heard = state.focus()?.map(|node| line("heard", node));
    let items = state.root()?.filtered_children(Filter::Common).map(|node| line("item", node));
    Ok(heard.into_iter().chain(items).collect())
}

/// The line of the next item, and whether there was one.
fn step(walk: &mut Walk, state: &State) -> Result<(String, bool), Box<dyn Error>> {
    let Some(id) = walk.next(state)? else {
        return Ok(("  the end\n".to_string(), false));
    };
    Ok((line("next", state.node(id)?), true))
}

/// The start: a window with a text, two buttons in a container, a hidden menu and room for the bank.
fn start(state: &mut State) -> Result<(), Box<dyn Error>> {
    let mut buffer = [0; RECORD_BYTES];
    let record = Batch::new(TreeId::ROOT, 4)
        .root(1)
        .nodes(&[
            Node::new(1).role(WINDOW).label("Checkout").children(&[2, 3, 6, 8]),
            Node::new(2).role(TEXT).label("Total 12.50"),
            Node::new(3).children(&[4, 5]),
            Node::new(4).role(BUTTON).label("Pay by card"),
            Node::new(5).role(BUTTON).label("Cancel"),
            Node::new(6).role(WINDOW).label("Staff menu").hidden(true).children(&[7]),
            Node::new(7).role(BUTTON).label("Refund"),
            Node::new(8).graft(BANK),
        ])
        .encode(&mut buffer)?;
    state.restart(record, true)?;
    Ok(())
}

/// Sends a batch.
fn send(state: &mut State, batch: &Batch) -> Result<(), Box<dyn Error>> {
    state.update(batch.encode(&mut [0; RECORD_BYTES])?, &mut [0; CHANGES])?;
    Ok(())
}

/// The bank's pane, and the focus into it.
fn pay(state: &mut State) -> Result<(), Box<dyn Error>> {
    let pane = [
        Node::new(1).children(&[2, 3]),
        Node::new(2).role(FIELD).label("PIN"),
        Node::new(3).role(BUTTON).label("OK"),
    ];
    send(state, &Batch::new(BANK, 2).root(1).nodes(&pane))?;
    send(state, &Batch::new(TreeId::ROOT, 8))
}

/// The second button goes.
fn take_cancel_away(state: &mut State) -> Result<(), Box<dyn Error>> {
    send(state, &Batch::new(TreeId::ROOT, 8).nodes(&[Node::new(3).children(&[4])]))
}

/// All that is spoken.
pub fn spoken() -> Spoken {
    let mut state = Box::new(State::blank());
    start(&mut state)?;
    let mut said = format!("the shop starts its screen\n{}", screen(&state)?);
    pay(&mut state)?;
    write!(said, "the bank sends its pane\n{}", screen(&state)?)?;

    let first = state.root()?.first_filtered_child(Filter::Common).ok_or("there is no item")?;
    let mut walk = first.walk(Side::Following, Some(Filter::Common));
    write!(said, "the cardholder goes through the items\n{}", step(&mut walk, &state)?.0)?;
    take_cancel_away(&mut state)?;
    said.push_str("the shop takes Cancel away\n");
    loop {
        let (line, more) = step(&mut walk, &state)?;
        said.push_str(&line);
        if !more {
            return Ok(said);
        }
    }
}

fn main() -> Result<(), Box<dyn Error>> {
    print!("{}", spoken()?);
    Ok(())
}
