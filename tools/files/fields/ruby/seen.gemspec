Gem::Specification.new do |spec|
  spec.name = "seen"
  spec.license = "GPL-3.0"
  spec.licenses = ["MIT".freeze, "Ruby"]
end
