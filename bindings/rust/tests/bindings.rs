//! What the crate answers, beside its examples.

use yolkdamask::{
    Dialect, Error, Field, Format, Layout, Module, Refusal, Scalar, Settings, Severity, Sort,
    run_script, version,
};

const LIGHTS: &str = "
struct Light { at: vec3<f32>, power: f32, color: vec4<f16> }
struct Lights { count: atomic<u32>, all: array<Light> }
@group(0) @binding(0) var<storage, read_write> lights: Lights;
";

fn is_plain<T: Send + Sync + Clone + std::fmt::Debug>() {}

#[test]
fn all_types_may_go_to_other_threads() {
    is_plain::<Module>();
    is_plain::<Layout>();
    is_plain::<yolkdamask::Place>();
    is_plain::<yolkdamask::Fault>();
    is_plain::<Error>();
    is_plain::<Settings>();
}

#[test]
fn a_layout_has_places() -> Result<(), Error> {
    let lights = Module::new(LIGHTS).layout("lights")?;
    assert_eq!((lights.size(), lights.align()), (None, 16));
    assert_eq!(lights.size_with(2), Some(80));
    assert_eq!(
        (
            lights.count_in(80),
            lights.count_in(79),
            lights.count_in(16)
        ),
        (Some(2), Some(1), None)
    );
    let mut bytes = vec![0; 80];
    let power = lights.place("all[1].power", 80).expect("there are two");
    assert_eq!(
        (power.offset(), power.scalar(), power.numbers()),
        (60, Some(Scalar::F32), 1)
    );
    assert!(power.set(&mut bytes, 1.0f32));
    assert_eq!(bytes[60..64], 1.0f32.to_le_bytes());
    assert_eq!(power.get(&bytes), Some(1.0f32));
    assert_eq!(
        (power.get::<u32>(&bytes), power.get::<f32>(&bytes[..63])),
        (None, None)
    );
    assert_eq!(lights.place("all[2].power", 80), None);
    assert_eq!(lights.place("all[1].weight", 80), None);
    let color = lights.place("all[0].color", 80).expect("there is one");
    assert!(color.set_vector(&mut bytes, [1u16, 2, 3, 4]));
    assert_eq!(color.get_vector(&bytes), Some([1u16, 2, 3, 4]));
    assert_eq!(color.get_vector::<u16, 3>(&bytes), None);
    let whole = lights.whole().expect("it has a root");
    let by_position = lights
        .part(whole, 1, 80)
        .and_then(|all| lights.part(all, 1, 80))
        .and_then(|light| lights.part(light, 1, 80));
    assert_eq!(by_position, Some(power));
    Ok(())
}

#[test]
fn members_are_told_by_name() -> Result<(), Error> {
    let light = Module::new(LIGHTS).layout("Light")?;
    let names: Vec<_> = light
        .members()
        .map(|member| (member.name, member.node.offset))
        .collect();
    assert_eq!(names, [("at", 0), ("power", 12), ("color", 16)]);
    let of_type = Module::new(LIGHTS).layout("array<Light, 3>")?;
    assert_eq!(of_type.nodes()[0].sort(), Some(Sort::Array));
    assert_eq!(of_type.members_of(1).len(), 3);
    assert_eq!(of_type.members().len(), 0);
    Ok(())
}

#[test]
fn layouts_are_compared() -> Result<(), Error> {
    let one = Module::new("struct S { a: u32, b: u32 }").layout("S")?;
    let two = Module::new("struct T { c: u32, d: u32 }").layout("T")?;
    let three = Module::new("struct S { a: u32, @align(8) b: u32 }").layout("S")?;
    assert_eq!(one, two);
    let found = one.first_difference(&three).expect("they differ");
    assert!(matches!(
        found.field(),
        Field::Size | Field::Align | Field::Offset
    ));
    Ok(())
}

#[test]
fn faults_have_places() -> Result<(), Error> {
    let module = Module::new("const a: u32 = 1;\nconst é = missing;\n");
    let faults = module.faults()?;
    assert_eq!(faults.len(), 1);
    let fault = &faults[0];
    assert_eq!(
        (fault.line(), fault.column(), fault.column_utf16()),
        (2, 11, 11)
    );
    assert_eq!(&module.text()[fault.range()], "missing");
    assert_eq!(
        (fault.severity(), fault.code()),
        (Severity::Error, "evaluation")
    );
    assert_eq!(fault.to_string(), "2:11: error: nothing is named missing");
    assert_eq!(module.constants()?.faults, 1);
    Ok(())
}

#[test]
fn expressions_are_evaluated() -> Result<(), Error> {
    let module = Module::new("const WIDTH = 5u;");
    let found = module.expression("vec2(WIDTH, 1u) * 2u")?;
    assert_eq!(
        (found.ty.as_str(), found.value.as_str()),
        ("vec2<u32>", "vec2(10u, 2u)")
    );
    assert_eq!(found.bytes, Some(vec![10, 0, 0, 0, 2, 0, 0, 0]));
    assert_eq!(module.expression("true")?.bytes, None);
    assert_eq!(module.expression("1.5"), Err(Refusal::NeedsFloat.into()));
    assert!(matches!(module.expression("WIDTHS"), Err(Error::Faulty(1))));
    assert!(matches!(module.expression(""), Err(Error::Faulty(_))));
    Ok(())
}

#[test]
fn settings_are_obeyed() -> Result<(), Error> {
    let text =
        "override n: u32; const a = mat2x2<i32>(1, 2, 3, 4); var<workgroup> w: array<u32, n>;";
    let strict = Module::with(text, Settings::new().strict(true));
    assert!(
        strict
            .faults()?
            .iter()
            .any(|fault| fault.severity() == Severity::Error)
    );
    let of_crate = Settings::new().dialect(Dialect::Crate).define("n", "8");
    assert_eq!(Module::with(text, of_crate.clone()).constants()?.faults, 0);
    assert_eq!(Module::with(text, of_crate).expression("n")?.value, "8u");
    let wrong = Module::with(text, Settings::new().define("a b", "1")).constants();
    assert!(matches!(wrong, Err(Error::Misuse(_)) | Ok(_)));
    Ok(())
}

#[test]
fn reports_are_texts() -> Result<(), Error> {
    let module = Module::new(LIGHTS);
    for format in Format::ALL {
        let report = module.layouts(format, &[])?;
        assert!(
            report.faults == 0 && report.text.contains("Light"),
            "{format:?}: {}",
            report.text
        );
    }
    assert_eq!(module.layouts(Format::Table, &["nothing"])?.faults, 1);
    Ok(())
}

#[test]
fn scripts_run() -> Result<(), Error> {
    let script = "new u32 storage read_write 01000000\nread &0\nread &1\n";
    let lines = run_script(script)?;
    assert_eq!(lines.lines().count(), 3);
    assert!(lines.starts_with("&0\n1u\n"), "{lines}");
    assert_eq!(
        run_script(vec![b'\n'; (1 << 20) + 1]),
        Err(Refusal::ScriptTooLong.into())
    );
    Ok(())
}

#[test]
fn the_version_is_that_of_the_crate() -> Result<(), Error> {
    assert_eq!(version()?, env!("CARGO_PKG_VERSION"));
    Ok(())
}

#[test]
fn errors_are_told() {
    assert_eq!(Error::Faulty(2).to_string(), "the source has 2 faults");
    assert_eq!(
        Error::from(Refusal::NoBytes).to_string(),
        "the value has no bytes"
    );
    assert!(std::error::Error::source(&Error::Memory).is_none());
}

#[test]
fn eight_threads_read_one_module() -> Result<(), Error> {
    let module = Module::new(LIGHTS);
    let alone = module.layout("lights")?;
    std::thread::scope(|scope| {
        let threads: Vec<_> = (0..8)
            .map(|_| scope.spawn(|| module.layout("lights")))
            .collect();
        for thread in threads {
            assert_eq!(thread.join().expect("it ends")?.nodes(), alone.nodes());
        }
        Ok(())
    })
}
