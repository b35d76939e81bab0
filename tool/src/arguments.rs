//! The command line.

use crate::Stop;
use clap::{Args, Parser, Subcommand};
use mlhe::{Frame, Memory, Rule, Settings};
use std::path::PathBuf;

/// The arguments of settings, none of which goes with a list.
const SETTINGS: [&str; 6] = ["last", "area", "plain", "limited", "affine", "neighbours"];

/// Enhances frames by morpho-local histogram equalisation, on the proved library.
#[derive(Parser)]
#[command(name = "zopykue", version, propagate_version = true)]
pub struct Arguments {
    #[command(subcommand)]
    pub command: Command,
}

#[derive(Subcommand)]
pub enum Command {
    Enhance(Enhance),
    List(List),
}

/// Enhances P6 frames, several at once, into a folder
///
/// A given folder is taken with all below it: the files that are named .ppm or .pnm, without hidden ones. A given file
/// is taken whatever its name. Results keep their names and the folders that they are in: left/f1.ppm is written to
/// FOLDER/left/f1.ppm, whether left or left/f1.ppm is given. Everything is checked before the first frame is read: no
/// two results are the same file, and none is an input. A result is written beside its place and renamed into it, so it
/// is never there in part.
///
/// Frames have sides of at most 4,096 and at most 1,048,576 pixels; for larger ones nothing is done. Comments in their
/// headers are skipped, and not written.
///
/// Exit status: 0, all were enhanced; 1, something was refused or failed; 2, bad usage, and nothing was done.
#[derive(Args)]
pub struct Enhance {
    /// The folder for the results, made if it is not there
    #[arg(long, value_name = "FOLDER")]
    pub to: PathBuf,
    /// Write the new intensity too, as a PGM file beside the frame: the plane that the guarantee is of, and the one to
    /// match spots on
    #[arg(long)]
    pub plane: bool,
    #[command(flatten)]
    pub settings: Numbers,
    /// Run the passes of a pass list, of version 1 or 2, in place of settings
    #[arg(long, value_name = "FILE", conflicts_with_all = SETTINGS)]
    pub list: Option<PathBuf>,
    /// Write a line for each file, with tabs between file, size, answer, components retoned, components kept back, and
    /// reason
    #[arg(long, value_name = "FILE")]
    pub report: Option<PathBuf>,
    /// How many frames at once; all processor cores if it is not given. A frame takes about 20 MB while it is enhanced
    #[arg(long, value_name = "N", value_parser = clap::value_parser!(u16).range(1..))]
    pub jobs: Option<u16>,
    /// Frames, and folders of frames
    #[arg(required = true, value_name = "PATH")]
    pub paths: Vec<PathBuf>,
}

/// Prints a pass list as text, writes one, or converts one to the other version
///
/// The list is read from a file, made from lines of text, or else the one that an enhancement with the settings equals.
/// A line of text is a pass: first value, last value, least area, and `plain LOW HIGH`, `limited K` or
/// `affine N SMIN SMAX`, then `neighbours 8` where it has eight. Empty lines and what follows a # are passed over. What
/// is printed has this form too.
///
/// List files of version 1 and 2 are read. Version 1 means four neighbours; in version 2 each pass has its own number.
/// A list is written in version 1 where all its passes have four neighbours, and in version 2 otherwise. It has at most
/// 320 passes, and an enhancement 1 to 255, by its last level.
#[derive(Args)]
#[command(args_conflicts_with_subcommands = true, disable_help_subcommand = true)]
pub struct List {
    #[command(subcommand)]
    pub command: Option<ListCommand>,
    /// A pass list, in the bytes of its file format; one that is named convert is given as ./convert
    #[arg(value_name = "FILE", conflicts_with_all = SETTINGS, conflicts_with = "text")]
    pub file: Option<PathBuf>,
    /// Lines of text; - is standard input
    #[arg(long, value_name = "LINES", conflicts_with_all = SETTINGS)]
    pub text: Option<PathBuf>,
    #[command(flatten)]
    pub settings: Numbers,
    /// Write the list to this file, in place of printing it
    #[arg(long, value_name = "FILE")]
    pub to: Option<PathBuf>,
}

#[derive(Subcommand)]
pub enum ListCommand {
    Convert(Convert),
}

/// Converts a list file to the other version, 1 to 2 or 2 to 1
///
/// The passes stay the same, so that both versions enhance alike, and what is converted twice is the first file again,
/// byte for byte. A list with eight neighbours has no version 1, and is refused. The result is there whole or not at
/// all, and is never written over the input.
///
/// Exit status: 0, it is written; 1, the list is refused, or a file cannot be read or written; 2, bad usage, and
/// nothing was done.
#[derive(Args)]
pub struct Convert {
    /// A pass list of version 1 or 2
    #[arg(value_name = "FROM")]
    pub from: PathBuf,
    /// The file for the same list in the other version
    #[arg(value_name = "TO")]
    pub to: PathBuf,
}

/// The settings of an enhancement. What is not given is that of the house setting.
#[derive(Args)]
pub struct Numbers {
    /// The last level, 0 to 7 [house setting: 7]
    #[arg(long, value_name = "L")]
    last: Option<u8>,
    /// The least area of a component, in pixels [house setting: 20]
    #[arg(long, value_name = "PIXELS")]
    area: Option<u32>,
    /// Histogram equalisation, kept back where the range of values grows by less than LOW or more than HIGH hundredths
    /// [house setting: 80 300]
    #[arg(long, num_args = 2, value_names = ["LOW", "HIGH"])]
    plain: Option<Vec<u16>>,
    /// Contrast-limited equalisation with a clip of K thousandths, in place of plain
    #[arg(long, value_name = "K", conflicts_with = "plain")]
    limited: Option<u16>,
    /// Piecewise affine equalisation with N segments, 1 to 16, whose slopes are held between SMIN and SMAX hundredths,
    /// in place of plain; kept back where the segments do not reach the range's upper end
    #[arg(long, num_args = 3, value_names = ["N", "SMIN", "SMAX"], conflicts_with_all = ["plain", "limited"])]
    affine: Option<Vec<u16>>,
    /// How many neighbours a pixel has: 4, or 8, with which pixels that touch at a corner belong together, so that thin
    /// diagonal wires do not break into single pixels [house setting: 4]
    #[arg(long, value_name = "N")]
    neighbours: Option<u16>,
}

impl Numbers {
    /// The rule, if one is given.
    fn rule(&self) -> Option<Rule> {
        match (self.plain.as_deref(), self.limited, self.affine.as_deref()) {
            (Some(&[low, high]), ..) => Some(Rule::Plain { low, high }),
            (_, Some(k), _) => Some(Rule::Limited { k }),
            // More segments than a byte holds are refused as 255 are.
            (.., Some(&[n, smin, smax])) => {
                Some(Rule::Affine { segments: n.try_into().unwrap_or(u8::MAX), smin, smax })
            }
            _ => None,
        }
    }

    /// The settings, which the library has accepted.
    pub fn settings(&self) -> Result<Settings, Stop> {
        let house = Settings::house();
        let (last, area) = (self.last.unwrap_or(house.last), self.area.unwrap_or(house.area));
        // More neighbours than a byte holds are refused as 255 are.
        let neighbours = self.neighbours.map_or(house.neighbours, |number| number.try_into().unwrap_or(u8::MAX));
        let settings = Settings::new(last, area, self.rule().unwrap_or(house.rule)).with_neighbours(neighbours);
        let pixel = Frame::new(1, 1, vec![0; 3]).expect("one pixel is a frame");
        match pixel.enhanced(&settings, &mut Memory::new()) {
            Ok(_) => Ok(settings),
            Err(refusal) => Err(Stop::Usage(format!("the settings are {refusal}"))),
        }
    }
}
