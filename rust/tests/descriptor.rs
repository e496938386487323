//! The dependency descriptor: descriptors as a sender writes them, and bytes that are none.
use codec_payload::parts::descriptor::{
    DependencyDescriptor, DescriptorError, DescriptorFault, DescriptorReader, Layer,
};

/// The first descriptor of a call of Chromium with three temporal layers.
const CAPTURED_L1T3: &str = "800001800214eaa860414d141020842701df010d";

/// The first descriptors of a call of Chromium with VP9 in two spatial and three temporal layers, that frames begin with.
const CAPTURED_VP9: [&str; 8] = [
    "810001800514853abfaaa18f04304302a02a006001001b934515e082704608c0c7870043216511115432768077805980ef80b380",
    "860002",
    "830003",
    "880004",
    "820005",
    "870006",
    "840007",
    "890008",
];

/// The same of AV1 in two spatial and two temporal layers.
const CAPTURED_AV1: [&str; 8] = [
    "8000018003187aaaf130a0a014d141382304600864222226500ef00b301df01670",
    "830002",
    "820003",
    "850004",
    "810005",
    "840006",
    "8500071a68004020",
    "8300081a201810",
];

fn bytes(hex: &str) -> Vec<u8> {
    (0..hex.len() / 2)
        .map(|at| u8::from_str_radix(&hex[2 * at..2 * at + 2], 16).unwrap())
        .collect()
}

/// Bits in order, as the tables of the specification list fields.
#[derive(Clone, Default)]
struct Bits(Vec<bool>);

impl Bits {
    fn field(mut self, value: u32, bits: u32) -> Bits {
        self.0
            .extend((0..bits).rev().map(|place| value >> place & 1 == 1));
        self
    }

    /// The fields of one descriptor, with zeros up to a whole byte.
    fn bytes(&self) -> Vec<u8> {
        self.0
            .chunks(8)
            .map(|bits| {
                (0..8).fold(0, |byte, at| {
                    byte << 1 | u8::from(bits.get(at) == Some(&true))
                })
            })
            .collect()
    }

    fn header(template: u32, number: u32) -> Bits {
        Bits::default()
            .field(3, 2)
            .field(template, 6)
            .field(number, 16)
    }

    /// Five flags: structure, active decode targets, and a frame's own indications, references and chains.
    fn flags(self, flags: u32) -> Bits {
        self.field(flags, 5)
    }
}

/// A structure for two temporal layers, written by hand: two decode targets, one chain, three templates.
fn l1t2(bits: Bits, offset: u32) -> Bits {
    let layers = [(0, 2), (1, 2), (3, 2)];
    let indications = [2, 2, 3, 2, 0, 1];
    // The keyframe refers to nothing, the base layer to the frame two before, the upper layer to the one before.
    let references = [(0, 1), (1, 1), (1, 4), (0, 1), (1, 1), (0, 4), (0, 1)];
    // One chain of two values below three: ns(3) is 10. Both decode targets are protected by it: ns(1) has no bits.
    let mut bits = bits.field(offset, 6).field(1, 5);
    for (value, size) in layers {
        bits = bits.field(value, size);
    }
    for value in indications {
        bits = bits.field(value, 2);
    }
    for (value, size) in references {
        bits = bits.field(value, size);
    }
    bits = bits.field(2, 2);
    for value in [0, 2, 1] {
        bits = bits.field(value, 4);
    }
    bits.field(0, 1)
}

fn layer(spatial_id: u8, temporal_id: u8) -> Layer {
    Layer {
        spatial_id,
        temporal_id,
    }
}

#[test]
fn a_captured_structure_is_read() {
    let (frame, own) = DependencyDescriptor::read(&bytes(CAPTURED_L1T3), None).unwrap();
    let structure = own.unwrap();
    assert!(frame.start_of_frame && !frame.end_of_frame);
    assert_eq!(frame.frame_number, 1);
    assert_eq!(frame.layer, layer(0, 0));
    assert!(frame.references.is_empty());
    assert_eq!(frame.active_targets, Some(0b111));
    assert_eq!((structure.decode_targets(), structure.chains()), (3, 1));
    assert_eq!(
        structure.layers(),
        [
            layer(0, 0),
            layer(0, 0),
            layer(0, 1),
            layer(0, 2),
            layer(0, 2)
        ]
    );
    assert_eq!(structure.protected_by(), [0, 0, 0]);
}

/// Reads descriptors that frames begin with: the layer and the references of each.
fn frames(descriptors: &[&str]) -> (DescriptorReader, Vec<(u8, u8, Vec<u16>)>) {
    let mut reader = DescriptorReader::new();
    let mut frames = vec![];
    for (at, descriptor) in descriptors.iter().enumerate() {
        let frame = reader.read(&bytes(descriptor)).unwrap();
        assert!(frame.start_of_frame);
        assert_eq!(usize::from(frame.frame_number), at + 1);
        let references = frame.references.as_slice().to_vec();
        frames.push((frame.layer.spatial_id, frame.layer.temporal_id, references));
    }
    (reader, frames)
}

#[test]
fn captured_spatial_layers_are_read() {
    let (reader, read) = frames(&CAPTURED_VP9);
    let expected = [
        (0, 0, vec![]),
        (1, 0, vec![1]),
        (0, 2, vec![2]),
        (1, 2, vec![2, 1]),
        (0, 1, vec![4]),
        (1, 1, vec![4, 1]),
        (0, 2, vec![2]),
        (1, 2, vec![2, 1]),
    ];
    assert_eq!(read, expected);
    let structure = reader.structure().unwrap();
    assert_eq!(structure.layers().len(), 10);
    assert_eq!(structure.protected_by(), [0, 0, 0, 1, 1, 1]);
    assert_eq!(reader.active_targets(), 0b11_1111);

    let (reader, read) = frames(&CAPTURED_AV1);
    let expected = [
        (0, 0, vec![]),
        (1, 0, vec![1]),
        (0, 1, vec![2]),
        (1, 1, vec![2, 1]),
        (0, 0, vec![4]),
        (1, 0, vec![4, 1]),
        (1, 1, vec![4, 1]),
        (1, 0, vec![2]),
    ];
    assert_eq!(read, expected);
    let structure = reader.structure().unwrap();
    assert_eq!(structure.layers().len(), 6);
    assert_eq!(structure.protected_by(), [0, 0, 1, 1]);
    assert_eq!(reader.active_targets(), 0b1111);
}

#[test]
fn two_temporal_layers_by_hand() {
    let mut reader = DescriptorReader::new();
    let key = l1t2(Bits::header(5, 100).flags(0b10000), 5).bytes();
    let first = reader.read(&key).unwrap();
    assert_eq!((first.frame_number, first.layer), (100, layer(0, 0)));
    assert_eq!(first.indications.as_slice(), [2, 2]);
    assert_eq!(first.chain_differences.as_slice(), [0]);
    assert_eq!(reader.active_targets(), 0b11);

    let upper = reader.read(&Bits::header(7, 101).bytes()).unwrap();
    assert_eq!(upper.layer, layer(0, 1));
    assert_eq!(upper.references.as_slice(), [1]);
    assert_eq!(upper.indications.as_slice(), [0, 1]);
    assert_eq!(upper.chain_differences.as_slice(), [1]);
    assert_eq!(upper.active_targets, None);

    let base = reader.read(&Bits::header(6, 102).bytes()).unwrap();
    assert_eq!(base.references.as_slice(), [2]);
    assert_eq!(base.indications.as_slice(), [3, 2]);
    assert_eq!(base.chain_differences.as_slice(), [2]);
}

#[test]
fn a_frame_has_numbers_of_its_own() {
    let mut reader = DescriptorReader::new();
    reader
        .read(&l1t2(Bits::header(5, 100).flags(0b10000), 5).bytes())
        .unwrap();
    // Active decode targets, indications, references in 4, 8 and 12 bits, and chains.
    let own = Bits::header(6, 103)
        .flags(0b01111)
        .field(0b01, 2)
        .field(0b0100, 4)
        .field(1, 2)
        .field(15, 4)
        .field(2, 2)
        .field(255, 8)
        .field(3, 2)
        .field(4095, 12)
        .field(0, 2)
        .field(200, 8);
    let frame = reader.read(&own.bytes()).unwrap();
    assert_eq!(frame.active_targets, Some(0b01));
    assert_eq!(reader.active_targets(), 0b01);
    assert_eq!(frame.indications.as_slice(), [1, 0]);
    assert_eq!(frame.references.as_slice(), [16, 256, 4096]);
    assert_eq!(frame.chain_differences.as_slice(), [200]);
}

#[test]
fn faults_change_nothing() {
    let fault = DescriptorError::Fault;
    let mut reader = DescriptorReader::new();
    assert_eq!(
        reader.read(&[0xc0, 0, 1]).unwrap_err(),
        fault(DescriptorFault::NoStructure)
    );
    assert_eq!(
        reader.read(&[0xc0, 0]).unwrap_err(),
        fault(DescriptorFault::Short)
    );
    let key = l1t2(Bits::header(5, 100).flags(0b10000), 5).bytes();
    reader.read(&key).unwrap();
    assert_eq!(
        reader.read(&Bits::header(8, 101).bytes()).unwrap_err(),
        fault(DescriptorFault::Template)
    );
    // 64 templates of one layer, and no end.
    let mut layers = Bits::header(0, 101).flags(0b10000).field(0, 6).field(0, 5);
    for _ in 0..64 {
        layers = layers.field(0, 2);
    }
    assert_eq!(
        reader.read(&layers.bytes()).unwrap_err(),
        fault(DescriptorFault::Layers)
    );
    // A fifth spatial layer.
    let mut layers = Bits::header(0, 101).flags(0b10000).field(0, 6).field(0, 5);
    for _ in 0..4 {
        layers = layers.field(2, 2);
    }
    assert_eq!(
        reader.read(&layers.bytes()).unwrap_err(),
        fault(DescriptorFault::Layers)
    );
    // Sixteen references are read, and seventeen are not.
    let mut references = Bits::header(6, 101).flags(0b00010);
    for _ in 0..16 {
        references = references.field(1, 2).field(0, 4);
    }
    let most = reader
        .read(&references.clone().field(0, 2).bytes())
        .unwrap();
    assert_eq!(most.references.len(), 16);
    assert_eq!(
        reader
            .read(&references.field(1, 2).field(0, 4).field(0, 2).bytes())
            .unwrap_err(),
        fault(DescriptorFault::References)
    );
    let upper = reader.read(&Bits::header(7, 101).bytes()).unwrap();
    assert_eq!(upper.layer, layer(0, 1));
    assert_eq!(reader.structure().unwrap().first_template(), 5);
}

#[test]
fn cut_and_random_bytes_have_named_faults() {
    let whole = bytes(CAPTURED_L1T3);
    for end in 0..whole.len() {
        let fault = DependencyDescriptor::read(&whole[..end], None).unwrap_err();
        let expected = if end == 3 {
            DescriptorFault::NoStructure
        } else {
            DescriptorFault::Short
        };
        assert_eq!(fault, DescriptorError::Fault(expected), "{end}");
    }
    let (_, structure) = DependencyDescriptor::read(&whole, None).unwrap();
    let structure = structure.unwrap();
    let mut state = 0x9e37_79b9_7f4a_7c15u64;
    let mut next = || {
        state ^= state << 13;
        state ^= state >> 7;
        state ^= state << 17;
        state
    };
    let mut seen = [0; 6];
    for round in 0..100_000 {
        let mut it = if round % 2 == 0 {
            whole.clone()
        } else {
            (0..next() % 40).map(|_| next() as u8).collect()
        };
        for _ in 0..next() % 4 {
            if !it.is_empty() {
                let at = next() as usize % it.len();
                it[at] ^= 1 << (next() % 8);
            }
        }
        let before = (round % 3 != 0).then_some(&structure);
        seen[match DependencyDescriptor::read(&it, before) {
            Ok(_) => 0,
            Err(DescriptorError::Fault(DescriptorFault::Short)) => 1,
            Err(DescriptorError::Fault(DescriptorFault::NoStructure)) => 2,
            Err(DescriptorError::Fault(DescriptorFault::Template)) => 3,
            Err(DescriptorError::Fault(DescriptorFault::Layers)) => 4,
            Err(DescriptorError::Fault(DescriptorFault::References)) => 5,
            Err(error) => panic!("{error}"),
        }] += 1;
    }
    assert!(seen.iter().all(|times| *times > 0), "{seen:?}");
}
