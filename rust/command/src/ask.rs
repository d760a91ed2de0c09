//! The verbs that ask for a train's speed: speed and steps. The archive works out every speed.
use crate::arguments::Arguments;
use crate::input::{text, Input};
use crate::json::Json;
use crate::medium::Medium;
use crate::outcome::{Failure, Outcome, Streams};
use crate::told::Told;
use seglink::{Kind, Train};

/// The options that name a category of a train, and the one that says that it has none.
const CATEGORIES: [&str; 4] = ["--freight-p", "--freight-g", "--passenger", "--no-category"];

/// Makes the train that the options name. A train without a category must say so: a category that is forgotten can raise a speed.
pub fn train(arguments: &Arguments) -> Result<Train, Failure> {
    let given: Vec<bool> = CATEGORIES.iter().map(|name| arguments.has(name)).collect();
    if given[3] == given[..3].contains(&true) {
        return Err(arguments.usage(format!("a train has some of {}, or {}", CATEGORIES[..3].join(", "), CATEGORIES[3])));
    }
    let mut train = Train::new(arguments.needed("--length")?, arguments.needed("--cant")?, arguments.needed("--maximum")?);
    train.freight_p = given[0];
    train.freight_g = given[1];
    train.passenger = given[2];
    Ok(train)
}

/// A journey, and the number of its segment in which the train's front is.
struct Travel {
    journey: Input,
    leg: u32,
}

impl Travel {
    /// Reads the journey that the options name, if they do: `--journey` and `--leg` stand together.
    fn read(arguments: &Arguments, streams: &mut Streams) -> Result<Option<Travel>, Failure> {
        match (arguments.value("--journey"), arguments.number("--leg")?) {
            (None, None) => Ok(None),
            (Some(name), Some(leg)) => Ok(Some(Travel { journey: Input::read(name, arguments, streams)?, leg })),
            _ => Err(arguments.usage("--journey and --leg are given together or not at all".into())),
        }
    }
}

/// Segments in order of travel, the train that is asked for, and the journey if one is given.
struct Question {
    segments: Vec<Input>,
    kind: Kind,
    train: Train,
    travel: Option<Travel>,
}

/// A speed to show in km/h; and the permitted speed beside it, where it is a restricted one.
struct Answer {
    speed: u32,
    permitted: Option<u32>,
}

impl Question {
    /// Reads the segments of a run, and the journey if one is named. All are packets, or all are sheets.
    fn read(names: &[String], arguments: &Arguments, streams: &mut Streams) -> Result<Question, Failure> {
        let train = train(arguments)?;
        let segments = names.iter().map(|name| Input::read(name, arguments, streams)).collect::<Result<Vec<_>, _>>()?;
        let travel = Travel::read(arguments, streams)?;
        let medium = segments[0].medium;
        let journey = travel.iter().map(|travel| &travel.journey);
        if let Some(other) = segments.iter().chain(journey).find(|input| input.medium != medium) {
            let (first, other) = (&segments[0].name, &other.name);
            return Err(arguments.usage(format!("{first} and {other} are not of one kind: all are packets, or all are sheets")));
        }
        let kind = if medium == Medium::Packet { Kind::Packet } else { Kind::Sheet };
        Ok(Question { segments, kind, train, travel })
    }

    fn bytes(&self) -> Vec<&[u8]> {
        self.segments.iter().map(|input| &input.bytes[..]).collect()
    }

    fn permitted(&self, x: u32) -> Result<u32, Told> {
        seglink::permitted_speed(self.kind, &self.bytes(), self.train, x).map_err(|refused| Told::link(&refused))
    }

    /// Asks for the speed to show: the restricted speed where there is a journey, with the permitted speed; else the permitted speed.
    fn answer(&self, x: u32) -> Result<Answer, Told> {
        match &self.travel {
            None => Ok(Answer { speed: self.permitted(x)?, permitted: None }),
            Some(Travel { journey, leg }) => {
                let speed = seglink::restricted_speed(self.kind, &self.bytes(), &journey.bytes, *leg, self.train, x);
                let speed = speed.map_err(|refused| Told::link(&refused))?;
                Ok(Answer { speed, permitted: Some(self.permitted(x)?) })
            }
        }
    }

    /// Returns the file that a refusal is about: the first segment that the archive refuses so when it is asked about that one alone, or else the
    /// journey, which is judged after them. None for a refusal of the train, of x, of the leg, of the steps, or of the segments on the journey.
    fn refused_input(&self, told: &Told) -> Option<&Input> {
        if !matches!(told.number, 1..=7 | 9 | 12 | 13) {
            return None;
        }
        let alone = |input: &&Input| {
            seglink::permitted_speed(self.kind, &[&input.bytes], self.train, 0).map_err(|refused| Told::link(&refused))
        };
        let segment = self.segments.iter().find(|input| alone(input).err().as_ref() == Some(told));
        segment.or(self.travel.as_ref().map(|travel| &travel.journey))
    }

    /// Says a refusal: of a segment or the journey with its field, or of the question.
    fn refuse(&self, told: Told, json: bool, streams: &mut Streams) -> Failure {
        match self.refused_input(&told) {
            Some(input) => told.of_input(input, json, streams),
            None => told.of_question(json, streams),
        }
    }
}

/// Says the speed of a train at a centimetre of a run's last segment: the restricted speed on a journey, else the permitted speed.
pub fn speed(arguments: &Arguments, streams: &mut Streams) -> Outcome {
    let x = arguments.needed("--at")?;
    let question = Question::read(&arguments.operands, arguments, streams)?;
    let json = arguments.has("--json");
    match question.answer(x) {
        Ok(answer) if json => streams.say(speed_json(&question, x, &answer)),
        Ok(Answer { speed, permitted: None }) => streams.say(format!("{speed} km/h at {x} cm")),
        Ok(Answer { speed, permitted: Some(permitted) }) => {
            streams.say(format!("{speed} km/h at {x} cm, the restricted speed; the permitted speed is {permitted} km/h"))
        }
        Err(told) => Err(question.refuse(told, json, streams)),
    }
}

/// Returns a speed as JSON: `speed` is the one to show; on a journey, its file, the leg and the permitted speed stand beside it.
fn speed_json(question: &Question, x: u32, answer: &Answer) -> Json {
    let mut members = vec![("accepted", Json::Bool(true)), ("refusal", Json::number(0)), ("at", Json::number(x))];
    if let Some(Travel { journey, leg }) = &question.travel {
        members.extend([("journey", Json::text(&journey.name)), ("leg", Json::number(*leg))]);
    }
    members.push(("speed", Json::number(answer.speed)));
    members.extend(answer.permitted.map(|permitted| ("permitted", Json::number(permitted))));
    members.push(("unit", Json::text("km/h")));
    Json::Object(members)
}

/// A supplier's list: its name, starts in cm and speeds in km/h.
#[derive(Default)]
struct List {
    name: String,
    starts: Vec<u32>,
    speeds: Vec<u32>,
}

/// What the archive says of a list, and what it permits where the list is wrong first.
type Checked = Result<(), (Told, Option<u32>)>;

/// Checks a supplier's lists of speed steps against a train on a run's last segment.
pub fn steps(arguments: &Arguments, streams: &mut Streams) -> Outcome {
    let (lists, segments) = arguments.operands.split_first().expect("a list and a segment are given");
    let lists = lists_of(&text(lists, streams)?).map_err(|why| Failure::File(format!("{lists}: {why}")))?;
    let question = Question::read(segments, arguments, streams)?;
    let json = arguments.has("--json");
    let mut answers = Vec::new();
    for list in &lists {
        let checked = seglink::check_steps(question.kind, &question.bytes(), question.train, &list.starts, &list.speeds);
        answers.push(match checked.map_err(|refused| Told::link(&refused)) {
            Ok(()) => Ok(()),
            Err(told) if matches!(told.number, 18 | 19) => {
                let permitted = told.place.and_then(|place| question.permitted(u32::try_from(place).ok()?).ok());
                Err((told, permitted))
            }
            Err(told) => return Err(question.refuse(told, json, streams)),
        });
    }
    let all = answers.iter().all(|answer| answer.is_ok());
    let told = lists.iter().zip(&answers);
    match json {
        true => streams.say(Json::Object(vec![
            ("accepted", Json::Bool(all)),
            ("lists", Json::List(told.map(|(list, answer)| list_json(list, answer)).collect())),
        ]))?,
        false => streams.answer(told.map(|(list, answer)| list_text(list, answer)).collect::<String>().as_bytes())?,
    }
    if all {
        Ok(())
    } else {
        Err(Failure::Refused)
    }
}

/// Says in a line what the archive answered about a list.
fn list_text(list: &List, answer: &Checked) -> String {
    let said = match answer {
        Ok(()) => "right at every centimetre".into(),
        Err((told, None)) => told.to_string(),
        Err((told, Some(permitted))) => format!("{told}; {permitted} km/h is permitted there"),
    };
    format!("{}, {} steps: {said}\n", list.name, list.starts.len())
}

/// Returns what the archive answered about a list, as JSON.
fn list_json(list: &List, answer: &Checked) -> Json {
    let mut members = vec![("name", Json::text(&list.name)), ("steps", Json::number(list.starts.len() as u64))];
    match answer {
        Ok(()) => members.extend([("accepted", Json::Bool(true)), ("refusal", Json::number(0))]),
        Err((told, permitted)) => {
            members.extend(told.json());
            members.push(("permitted", Json::of(*permitted, Json::number)));
        }
    }
    Json::Object(members)
}

/// Reads lists: a step is a line with a start and a speed, an empty line ends a list, the text after `#` is the name of the list below it. A text
/// without a step is one list without steps.
fn lists_of(text: &str) -> Result<Vec<List>, String> {
    let (mut lists, mut list) = (Vec::new(), List::default());
    for (before, line) in text.lines().enumerate() {
        let words: Vec<&str> = line.split_whitespace().collect();
        if let Some(name) = line.trim_start().strip_prefix('#') {
            list.name = name.trim().into();
        } else if words.is_empty() {
            if !list.starts.is_empty() {
                end(&mut lists, &mut list);
            }
        } else {
            let numbers: Option<Vec<u32>> = words.iter().map(|word| word.parse().ok()).collect();
            let step = numbers.and_then(|numbers| <[u32; 2]>::try_from(numbers).ok());
            let [start, speed] = step.ok_or_else(|| format!("line {} is no start and speed: {line}", before + 1))?;
            list.starts.push(start);
            list.speeds.push(speed);
        }
    }
    if !list.starts.is_empty() || lists.is_empty() {
        end(&mut lists, &mut list);
    }
    Ok(lists)
}

/// Adds a list and begins the next; a list without a name is named by its number.
fn end(lists: &mut Vec<List>, list: &mut List) {
    if list.name.is_empty() {
        list.name = format!("list {}", lists.len() + 1);
    }
    lists.push(std::mem::take(list));
}

#[cfg(test)]
mod tests {
    use super::{lists_of, Input, Medium, Question, Travel};
    use seglink::{Kind, Train};

    /// A segment of 100 cm, 80 km/h, as a sheet.
    const SEGMENT: [u8; 25] = [6, 0xC5, 0xC6, 4, 1, 0, 0, 7, 0, 0, 0, 0, 100, 0, 0, 0, 80, 0, 0, 0, 0, 0, 0, 0, 0];
    /// A journey over it: 33 km/h from 20 cm to 45 cm, Q_FRONT 0.
    const JOURNEY: [u8; 25] = [4, 0xC5, 0xC6, 4, 1, 0, 0, 7, 1, 1, 0, 0, 0, 0, 1, 0, 1, 0, 2, 20, 45, 0, 33, 0, 0];

    /// Returns a question on sheets of these bytes, for a train of 10 cm.
    fn question(segments: &[&[u8]], journey: &[u8], leg: u32) -> Question {
        let input = |name: &str, bytes: &[u8]| Input::of_bytes(name, Medium::Sheet, bytes.to_vec());
        let segments = segments.iter().enumerate().map(|(nth, bytes)| input(&format!("segment {nth}"), bytes)).collect();
        let travel = Some(Travel { journey: input("journey", journey), leg });
        Question { segments, kind: Kind::Sheet, train: Train::new(10, 80, 600), travel }
    }

    /// Returns the number of a refusal, and the name of the file that it is about.
    fn refused(question: &Question, x: u32) -> (u32, Option<&str>) {
        let told = question.answer(x).err().expect("the question is refused");
        (told.number, question.refused_input(&told).map(|input| &input.name[..]))
    }

    #[test]
    fn a_journey_restricts() {
        let mut question = question(&[&SEGMENT], &JOURNEY, 0);
        for (x, restricted) in [(19, 80), (20, 33), (54, 33), (55, 80)] {
            let answer = question.answer(x).unwrap();
            assert_eq!((answer.speed, answer.permitted), (restricted, Some(80)), "{x}");
        }
        question.travel = None;
        let answer = question.answer(20).unwrap();
        assert_eq!((answer.speed, answer.permitted), (80, None));
    }

    #[test]
    fn a_refusal_names_its_file() {
        let cut = &SEGMENT[..24];
        assert_eq!(refused(&question(&[&SEGMENT, cut], &JOURNEY[..24], 0), 0), (9, Some("segment 1")));
        assert_eq!(refused(&question(&[&SEGMENT], &JOURNEY[..24], 0), 0), (9, Some("journey")));
        assert_eq!(refused(&question(&[&SEGMENT], &SEGMENT, 0), 0), (2, Some("journey")));
        assert_eq!(refused(&question(&[&JOURNEY], &JOURNEY, 0), 0), (2, Some("segment 0")));
        assert_eq!(refused(&question(&[&SEGMENT], &JOURNEY, 1), 0), (22, None));
        assert_eq!(refused(&question(&[&SEGMENT], &JOURNEY, 0), 100), (11, None));
    }

    #[test]
    fn lists_are_told_apart() {
        let lists = lists_of("# right\n0 60\n4500 110\n\n\n0 30\n").unwrap();
        let told: Vec<_> = lists.iter().map(|list| (&list.name[..], &list.starts[..], &list.speeds[..])).collect();
        assert_eq!(told, [("right", &[0, 4500][..], &[60, 110][..]), ("list 2", &[0], &[30])]);
        assert_eq!(lists_of("").unwrap()[0].starts, []);
        assert!(lists_of("0 60 1").is_err() && lists_of("0").is_err() && lists_of("0 -1").is_err());
    }
}
